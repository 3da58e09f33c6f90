/* The row counts of a plot that is lent, beside the rows in its words. */
#ifndef COUNTS_H
#define COUNTS_H

#include "generators/generate.h"
#include "tally.h"

/* Whether each count of a sound plot is the number of that relation's rows, which are counted in the words. */
bool counts_stand(const struct any_plot *plot);
/* What is wrong with the counts of a plot that is refused with 41. */
enum counts_fault counts_fault(const struct any_plot *plot);

#endif
