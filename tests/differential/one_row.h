/* Queries of one node that ask for a row, so that what they cost is the charge of that row alone. */
#ifndef ONE_ROW_H
#define ONE_ROW_H

#include "compare.h"

bool asks_one_row(const struct any_query *query);

/* Notes where the identical rows stand, after the query was accepted or refused with 46. */
void note_one_row(const struct any_plot *plot, const struct any_query *query, const struct any_cells *candidate,
                  uint32_t number, uint32_t budget);

#endif
