/* Queries that ask about the range alone, so that what they cost tells how many of its values they came to. */
#ifndef ALL_VALUES_H
#define ALL_VALUES_H

#include "compare.h"

/* Checks the cost of an accepted one against the range, and notes what plot and range are like. */
void check_values(const struct any_plot *plot, const struct any_query *query, enum value_query kind,
                  const struct any_cells *candidate, uint32_t cost);

#endif
