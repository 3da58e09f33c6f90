/* The sheets and columns by their names. */
#ifndef SHEETS_H
#define SHEETS_H

#include "desk.h"

/* No sheet has this number. */
enum { NO_SHEET = PLOTASK_RELATIONS };

/* The number of the sheet with this name, or NO_SHEET. */
uint32_t find_sheet(const struct plot *plot, struct word word);
/* Takes a sheet's name or number, which need not be that of a sheet; it is then at most NO_SHEET. */
bool take_sheet(struct line *line, const struct plot *plot, uint32_t *sheet);
/* Calls the sheets s0, s1 and so on, and their columns c0, c1. */
void name_by_number(struct plot *plot);

/* The index of a sheet's next row among the plot's words, at or after `at`; the words in use if there is none. */
size_t next_row(const struct plot *plot, uint32_t sheet, size_t at);
unsigned count_rows(const struct plot *plot, uint32_t sheet);

#endif
