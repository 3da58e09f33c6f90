/*
 * Queries of plots with up to 200 nulls, which have too many completions to ask. One of them decides: it gives each
 * null a fresh constant, one of its own that is in sight nowhere, in plot, candidate or query. A plain query is true
 * exactly if that completion says yes; and so is a query with "every" but without "not". Any query is true only if it
 * says yes, and false only if it says no. The same two hold of some completions at random.
 */
#ifndef LARGE_H
#define LARGE_H

#include "completions.h"

/* Whether a query was asked, and whether it is plain. */
enum large_round { LARGE_TOO_LARGE, LARGE_PLAIN, LARGE_OTHER };

/* Makes a query and what it is asked of, asks by both ways and judges; a broken claim ends the program. */
enum large_round run_large(struct random *random);

#endif
