/*
 * One compared call of each kind on a plot, with further arguments that are valid, at a limit or damaged. Some calls
 * are made on a damaged copy of the plot; the caller sees only what an undamaged plot becomes.
 */
#ifndef CALLS_H
#define CALLS_H

#include "compare.h"

/* The log stays one for the plot: an accepted decode starts it fresh. */
void try_decode(struct random *random, const struct palette *palette, struct any_plot *plot, struct any_log *log);
void try_insert(struct random *random, const struct palette *palette, struct any_plot *plot);
void try_substitute(struct random *random, const struct palette *palette, struct any_plot *plot);
void try_substitute_logged(struct random *random, const struct palette *palette, struct any_plot *plot,
                           struct any_log *log);
void try_undo(struct random *random, struct any_plot *plot, struct any_log *log);
void try_null_counts(struct random *random, struct any_plot *plot);
void try_encode(struct random *random, struct any_plot *plot);
void try_ask(struct random *random, const struct palette *palette, struct any_plot *plot);

/* A call that writes no word of the plot, or none. */
void try_call_between(struct random *random, const struct palette *palette, struct any_plot *plot);

/* The plot itself, or a damaged copy. */
struct any_plot *plot_to_lend(struct random *random, struct any_plot *plot);

/* The number of a null to replace: most often one that the plot holds. */
uint32_t null_to_replace(struct random *random, const struct palette *palette, const struct any_plot *plot);
/* What to put for it: most often a cell, sometimes the null itself or no cell. */
uint32_t any_replacement(struct random *random, const struct palette *palette, uint32_t null);

#endif
