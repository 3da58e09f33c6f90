/* The cells of a row as they are typed: 201 is a value, m4 is mark 4, - is a blank. */
#ifndef CELLS_H
#define CELLS_H

#include <stdbool.h>
#include <stddef.h>
#include <stdint.h>

enum {
    MOST_CELLS = 16, /* room for rows that are too long, too: it is for plotask to refuse them */
    CELL_BYTES = 16,
    BLANK = 0xfffffe,
    NO_CELL = 0xffffff /* a value above 999999, or a mark that is not m1 to m200; three bytes have room for it */
};

struct cells {
    uint32_t cell[MOST_CELLS];
    size_t count;
};

/* The number of a mark, m4. */
bool scan_mark(const char **at, uint32_t *mark);

/* A value, a mark or a blank. */
bool scan_cell(const char **at, uint32_t *cell);

/* Cells as long as there are any; false if they are more than MOST_CELLS. */
bool scan_cells(const char **at, struct cells *cells);

bool has_cell(const struct cells *cells, uint32_t cell);
bool same_cells(const struct cells *left, const struct cells *right);

/* Puts a cell in place of a mark. */
void fill_cells(struct cells *cells, uint32_t mark, uint32_t cell);

/* The number of the mark that a cell holds; 0 if it holds none. */
uint32_t mark_of(uint32_t cell);

/* A value or a mark as it is typed. */
void write_cell(uint32_t cell, char text[CELL_BYTES]);

#endif
