/* Demand 3 on one plot: ask, a list of substitutions, logged or not, ask again; each time by both ways of asking. */
#ifndef TWO_RUNS_H
#define TWO_RUNS_H

#include "calls.h"

void try_two_runs(struct random *random, const struct palette *palette, struct any_plot *plot);

#endif
