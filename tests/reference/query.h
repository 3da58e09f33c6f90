/* A query as a tree. */
#ifndef QUERY_H
#define QUERY_H

#include "plot.h"

struct node {
    enum kind kind;
    uint32_t relation;
    uint32_t terms[MOST_COLUMNS];
    size_t term_count;
    uint32_t variable;
    const struct node *parent; /* null until a node has named this one */
    const struct node *left;   /* the only child of not, some and every */
    const struct node *right;
};

struct query {
    size_t node_count;
    struct node nodes[MOST_NODES];
};

/* Takes a query's words apart: returns 0, or 21, 26, or the first refusal of the nodes by number. */
uint32_t query_take_apart(struct query *query, const struct plot *plot, const uint32_t *words, size_t length,
                          const uint32_t *candidate, size_t candidate_length);

/* The number of constants among the terms, each time one stands there. */
size_t query_constants(const struct query *query);
/*
 * "The plot's values and then the question's own inked terms, by node and word, each value once": writes this range to
 * the list, and returns the number of its values.
 */
size_t query_range(const struct query *query, const struct plot *plot, uint32_t *list);

/* The variables that the quantifiers above a node have bound, nearest first. */
struct binding {
    uint32_t variable;
    uint32_t cell;
    const struct binding *outer;
};

/* The cell that a term stands for: that of the nearest binding, or else of the candidate. */
uint32_t term_cell(uint32_t term, const struct binding *bindings, const uint32_t *candidate);

#endif
