/* The constants that a query names: where they stand, and what they change. */
#ifndef NAMED_H
#define NAMED_H

#include "compare.h"

/* Notes these of an undamaged plot, after the query was accepted or refused with 46. */
void note_named(const struct any_plot *plot, const struct any_query *query, uint32_t number);

/* What a query was asked with, and what both ways of asking then returned and wrote: 0 with truth and cost, or 46. */
struct outcome {
    uint32_t budget;
    uint32_t number;
    uint32_t truth;
    uint32_t cost;
};

/*
 * Asks the reference again, with the query's constants as cells of the candidate, which are no part of the range. Notes
 * what changes; fails if something does though the plot has all of the constants.
 */
void ask_unnamed(const struct any_plot *plot, const struct any_query *query, const struct any_cells *candidate,
                 const struct outcome *named);

#endif
