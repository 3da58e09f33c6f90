/* A plot taken apart into rows. */
#ifndef PLOT_H
#define PLOT_H

#include "reference.h"

struct row {
    uint32_t relation;
    uint32_t cells[MOST_COLUMNS];
};

struct plot {
    uint32_t relations;
    uint32_t arities[MOST_RELATIONS];
    size_t row_count;
    struct row rows[65535]; /* a card counts its rows in two bytes */
};

bool is_constant(uint32_t cell);
bool is_cell(uint32_t number);
/* The number of the null that a cell holds; 0 if it holds a constant. */
uint32_t null_of(uint32_t cell);

/* Takes a lent plot apart: returns 0, or 41. */
uint32_t plot_take_apart(struct plot *plot, const uint32_t *header, size_t header_length, const uint32_t *words,
                         size_t length);
size_t plot_words(const struct plot *plot);
size_t plot_cells(const struct plot *plot);
/* Writes the plot's values to the list, and returns their number. */
size_t plot_values(const struct plot *plot, uint32_t *list);
/* Appends a value to a list unless it is there, and returns the number of its values. */
size_t list_once(uint32_t *list, size_t count, uint32_t value);
void plot_write_rows(const struct plot *plot, uint32_t *words);
/* Writes rows and header: returns 0, or 42 if the rows have no room, and then writes nothing. */
uint32_t plot_store(const struct plot *plot, uint32_t *header, uint32_t *words, size_t length);

#endif
