/*
 * Queries of small plots: at most 2 different nulls and 3 different constants in plot and candidate together, so that
 * every completion can be asked. A query may name further constants.
 */
#ifndef SMALL_H
#define SMALL_H

#include "completions.h"

/* A query of up to 12 nodes; about half of them are plain. */
void make_small(struct random *random, struct asked *asked);

/* Puts "some" for each "every" and "not" of a query. */
void make_plain(struct any_query *query);

/* Whether a query has a node of this kind. */
bool has_kind(const struct any_query *query, enum kind kind);
/* "Made of kinds 1, 2, 4, 5 and 6 only." */
bool is_plain(const struct any_query *query);

#endif
