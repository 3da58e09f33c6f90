/* Cells as they are typed and shown: 201 is a value, m4 is mark 4, - is a blank. */
#ifndef CELLS_H
#define CELLS_H

#include "desk.h"

enum { CELL_TEXT = 8 };

/* The cells at the end of a line, and where each of them stands. */
struct cells {
    uint32_t cells[ROW_ROOM];
    bool blank[ROW_ROOM]; /* such a cell is still to be given a mark */
    size_t at[ROW_ROOM];
    size_t count;
};

/* Takes a value or a mark. Those out of range become a number that is no cell, so that plotask refuses them. */
bool take_cell(struct line *line, uint32_t *cell);
/* The number of a mark; one that is out of range becomes 0 or 201. */
bool take_mark(struct line *line, uint32_t *mark);
/* Takes cells up to the first word that is no cell, or to the end. Those after the seventh are read and dropped. */
bool take_cells(struct line *line, bool blanks, struct cells *cells);

/* The index of the first number that is no cell for plotask; the count if there is none. The plot is sound. */
size_t cell_at_fault(const struct plot *plot, const uint32_t *cells, size_t count);

/* Writes a cell, and returns its length. */
int write_cell(char text[CELL_TEXT], uint32_t cell);
void print_cells(FILE *out, const uint32_t *cells, size_t count);

static inline bool is_mark(uint32_t cell)
{
    return cell >= PLOTASK_FIRST_MARK && cell <= PLOTASK_LAST_MARK;
}

#endif
