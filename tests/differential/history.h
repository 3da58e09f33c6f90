/* A history of one plot and log: logged substitutions, undos and inserts from a fresh log on, against an account. */
#ifndef HISTORY_H
#define HISTORY_H

#include "calls.h"

void try_history(struct random *random, const struct palette *palette, struct any_plot *plot);

#endif
