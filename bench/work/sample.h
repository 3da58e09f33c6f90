/* Plots and queries to measure with. */
#ifndef SAMPLE_H
#define SAMPLE_H

#include "plotask.h"

/* The most rows of six columns, a small number of different values, and the most rows that a query can ask. */
enum { FULL_ROWS = 585, FEW_VALUES = 16, ROW_TESTS = PLOTASK_NODES / 2 };

struct sample {
    struct plotask_header header;
    uint32_t plot[PLOTASK_WORDS];
    uint32_t query[PLOTASK_QUERY_WORDS];
    size_t query_words;
    uint32_t candidate[PLOTASK_CANDIDATE];
    size_t candidate_cells;
};

/* Enters a row without its cells, counts it, and returns where the cells are to be written. */
uint32_t *add_row(struct sample *sample, uint32_t relation);

/* A plot of one relation. Each cell gets its index among the cells, modulo `values`. */
void make_plot(struct sample *sample, uint32_t columns, uint32_t rows, uint32_t values);

/*
 * A plot whose only row is null 1 in each of six columns: each quantifier has one value, and the row of a chain, below,
 * has to be unified with this one.
 */
void make_null_row(struct sample *sample);

/* Puts nulls 1 to 200, in turn, in the last column of every row, and the columns' own numbers before them. */
void null_every_row(struct sample *sample);

/* Gives the rows of a plot of one relation to eight, of as many columns each, in turn. */
void spread_rows(struct sample *sample);

/* A full plot of zeros, with a constant of its own in the last cell of every fifth row: one new value in 35 words. */
void make_sparse(struct sample *sample);

/*
 * Gives the cells of a plot of six columns `values` different constants, in turn, out of the first few of the 1,024
 * buckets of the library's hash (crates/domain/src/chain.rt). A bucket has at least 970 constants.
 */
void share_buckets(struct sample *sample, uint32_t buckets, uint32_t values);

/* Appends a node to the query; the words that are not given are 0. */
void add_node(struct sample *sample, uint32_t kind, uint32_t first, uint32_t second);

/* Appends "the row stands in relation 0", whose terms are the given variable and those at each further step. */
void add_row_node(struct sample *sample, uint32_t variable, uint32_t step);

/* 0 = 0 */
void ask_nothing(struct sample *sample);

/* the candidate, which is first, first + 1 and so on, stands in relation 0 */
void ask_row(struct sample *sample, uint32_t first);

/* the candidate, which no plot here has, stands in relation 0 */
void ask_absent_row(struct sample *sample);

/* the candidate stands in relation 0, asked ROW_TESTS times and joined by the kind, "and" or "or" */
void ask_row_often(struct sample *sample, uint32_t kind);

/* every v6: every v7: the candidate, which is the plot's first row, stands in relation 0 */
void ask_first_row(struct sample *sample);

/* every v0: not (v0, .., v0) stands in relation 0 */
void ask_absent(struct sample *sample);

/* every v0: v0 = v0 */
void ask_values(struct sample *sample);

/* every v0: v0 = v0 or 999000 = 999001, where the right child has the lower number; no plot here has the constants */
void ask_named(struct sample *sample);

/* every v0: some v1: v1 = v1, where "some" stops at the first value */
void ask_first_values(struct sample *sample);

/* every v0: every v1: v0 = v1 or not v0 = v1 */
void ask_pairs(struct sample *sample);

/* Appends a row of one cell, which holds the highest constant, in a relation 1 of its own. */
void add_last_row(struct sample *sample);

/* every v0: not (v0) stands in relation 1 */
void ask_last_row(struct sample *sample);

/* A chain of `nodes` nodes: one kind above "a row that binds a null in each column stands in relation 0". */
void ask_chain(struct sample *sample, uint32_t kind, uint32_t nodes);

/* A chain of `levels` times "and", each with such a row on its left, and one at the end. */
void ask_and_chain(struct sample *sample, uint32_t levels);

#endif
