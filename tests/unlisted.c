/*
 * Which values a query ranges over, and in which order, where a walk over the rows and then the query's words could go
 * wrong. The library and the reference are asked, with a working list and without one.
 */
#include "differential/compare.h"
#include "support/checks.h"

#include <inttypes.h>
#include <stdio.h>
#include <string.h>

#define M(null)     (CONSTANTS + (null))
#define X(variable) (FIRST_VARIABLE + (variable))

enum { MOST_VALUES = 8 };

struct values {
    size_t count;
    uint32_t cells[MOST_VALUES];
};

static struct any_plot plot;

/* Starts a plot without rows. */
static void start(uint32_t relations, const uint32_t *arities)
{
    plot.header_length = HEADER_WORDS;
    header_start(plot.header, relations, arities);
    plot.length = 0;
}

/* Appends rows, given as their words. */
static void add_rows(const uint32_t *words, size_t count)
{
    memcpy(plot.words + plot.length, words, count * sizeof *words);
    plot.length += count;
    while (plot.header[HEADER_USED] < plot.length)
        header_add_row(plot.header, plot.words[plot.header[HEADER_USED]]);
}

/* Whether a query about the candidate's only cell has this truth and cost, which is also the least budget for it. */
static bool answers(const uint32_t nodes[][NODE_WORDS], size_t count, uint32_t cell, uint32_t truth, uint32_t cost)
{
    static struct any_query query;
    const struct any_cells candidate = {{cell}, 1};
    uint32_t truth_given;
    uint32_t cost_given;
    query.length = count * NODE_WORDS;
    memcpy(query.words, nodes, query.length * sizeof *query.words);
    size_t need = list_need(&plot, &query);
    if (both_ask(&plot, &query, &candidate, need, cost, &truth_given, &cost_given) != 0)
        return false;
    if (truth_given != truth || cost_given != cost)
        return false;
    return cost == 0 || both_ask(&plot, &query, &candidate, need, cost - 1, &truth_given, &cost_given) == 46;
}

/* Each value is found after those before it, and no further one is met; the cell `absent` is none of them. */
static void expect_values(const char *name, const struct values *values, uint32_t absent)
{
    static const uint32_t every[2][NODE_WORDS] = {{EVERY, 1, 1}, {EQUAL, X(1), X(1)}};
    static const uint32_t some[3][NODE_WORDS] = {{SOME, 1, 1}, {NOT, 2}, {EQUAL, X(1), X(1)}};
    static const uint32_t find[2][NODE_WORDS] = {{SOME, 1, 1}, {EQUAL, X(1), X(0)}};
    uint32_t count = (uint32_t)values->count;
    bool holds = answers(every, 2, absent, TRUTH_TRUE, count) && answers(some, 3, absent, TRUTH_FALSE, count);
    bool a_null = false;
    for (uint32_t i = 0; i < count; i++) {
        holds = holds && answers(find, 2, values->cells[i], TRUTH_TRUE, i + 1);
        a_null = a_null || values->cells[i] > CONSTANTS;
    }
    holds = holds && answers(find, 2, absent, a_null ? TRUTH_UNKNOWN : TRUTH_FALSE, count);
    if (!check(holds))
        printf("the values of %s are others\n", name);
}

/* A cell that equals the number of a relation, whose row comes before it or is its own; and such a number alone. */
static void check_relation_numbers(void)
{
    static const uint32_t arities[MOST_RELATIONS] = {1, 1, 1, 1, 1, 1, 1, 1};
    for (uint32_t relation = 0; relation < MOST_RELATIONS; relation++) {
        char name[64];
        start(MOST_RELATIONS, arities);
        add_rows((const uint32_t[]){relation, 500}, 2);
        snprintf(name, sizeof name, "a row of relation %" PRIu32, relation);
        expect_values(name, &(const struct values){1, {500}}, relation);
        add_rows((const uint32_t[]){(relation + 1) % MOST_RELATIONS, relation}, 2);
        snprintf(name, sizeof name, "a cell %" PRIu32 " after a row of that relation", relation);
        expect_values(name, &(const struct values){2, {500, relation}}, (relation + 1) % MOST_RELATIONS);
        start(MOST_RELATIONS, arities);
        add_rows((const uint32_t[]){relation, relation, relation, 500}, 4);
        snprintf(name, sizeof name, "a cell %" PRIu32 " in a row of that relation", relation);
        expect_values(name, &(const struct values){2, {relation, 500}}, (relation + 1) % MOST_RELATIONS);
    }
}

/* A plot of two relations, of arities 2 and 1. */
static const struct {
    const char *name;
    size_t used;
    uint32_t words[9];
    struct values values;
} plots[] = {
    {"no rows", 0, {0}, {0, {0}}},
    {"a value twice in a row", 3, {0, 5, 5}, {1, {5}}},
    {"a value in two rows", 6, {0, 5, 6, 0, 7, 5}, {3, {5, 6, 7}}},
    {"two equal rows", 6, {0, 5, 6, 0, 5, 6}, {2, {5, 6}}},
    {"a value in two relations", 5, {1, 5, 0, 6, 5}, {2, {5, 6}}},
    {"a value that is new in the last word", 7, {0, 5, 5, 1, 5, 1, 6}, {2, {5, 6}}},
    {"a null in two relations, and another", 8, {0, M(1), 5, 1, M(1), 0, M(2), 5}, {3, {M(1), 5, M(2)}}},
    {"values not in rising order", 9, {0, 9, M(200), 0, 3, 9, 0, M(1), 0}, {5, {9, M(200), 3, M(1), 0}}},
};

/*
 * A plot of three relations, of arities 2, 1 and 6, and the nodes from 3 on of a query whose nodes 0 to 2 ask about its
 * range, and ask no further node if the answer is true.
 */
static const struct {
    const char *name;
    size_t used;
    uint32_t words[9];
    size_t nodes;
    uint32_t query[3][NODE_WORDS];
    struct values values;
} named[] = {
    {"a term that the plot lacks", 2, {1, 5}, 1, {{EQUAL, 7, X(0)}}, {2, {5, 7}}},
    {"a term that the plot has", 3, {0, 5, 6}, 1, {{EQUAL, 7, 5}}, {3, {5, 6, 7}}},
    {"the last word of the plot as a term", 3, {0, 5, 6}, 1, {{EQUAL, 6, 7}}, {3, {5, 6, 7}}},
    {"a term twice in a node", 2, {1, 5}, 1, {{EQUAL, 7, 7}}, {2, {5, 7}}},
    {"a term in two nodes", 2, {1, 5}, 3, {{OR, 4, 5}, {EQUAL, 7, 8}, {EQUAL, 9, 7}}, {4, {5, 7, 8, 9}}},
    {"a right child before the left", 2, {1, 5}, 3, {{OR, 5, 4}, {EQUAL, 9, 8}, {EQUAL, 7, 9}}, {4, {5, 9, 8, 7}}},
    {"a term below a quantifier", 2, {1, 5}, 3, {{NOT, 4}, {SOME, 6, 5}, {EQUAL, X(6), 4}}, {2, {5, 4}}},
    {"no rows and two terms", 0, {0}, 1, {{EQUAL, CONSTANTS - 1, 0}}, {2, {CONSTANTS - 1, 0}}},
    {"a null and a term", 2, {1, M(1)}, 1, {{EQUAL, 0, X(0)}}, {2, {M(1), 0}}},
    {"a relation's number alone", 2, {1, 5}, 1, {{ROW_STANDS, 1, X(0)}}, {1, {5}}},
    {"a relation's number as a term", 2, {1, 5}, 1, {{ROW_STANDS, 1, 1}}, {2, {5, 1}}},
    {"a node's kind as a term", 2, {1, 5}, 1, {{EQUAL, 5, 2}}, {2, {5, 2}}},
    {"a variable's and a child's number as terms", 2, {1, 5}, 1, {{EQUAL, 1, 3}}, {3, {5, 1, 3}}},
    {"the first inked value as a term", 2, {1, 5}, 1, {{EQUAL, 0, X(0)}}, {2, {5, 0}}},
    {"the first of two terms of a row", 2, {1, 5}, 1, {{ROW_STANDS, 0, 8, X(0)}}, {2, {5, 8}}},
    {"the last word of the query",
     7,
     {2, 1, 2, 3, 4, 5, 6},
     1,
     {{ROW_STANDS, 2, X(0), X(0), X(0), X(0), X(0), 9}},
     {7, {1, 2, 3, 4, 5, 6, 9}}},
    {"six terms of a row, of which the plot has two",
     3,
     {0, 5, 3},
     1,
     {{ROW_STANDS, 2, 7, 5, 8, 7, 3, 4}},
     {5, {5, 3, 7, 8, 4}}},
};

/* Each value is found after those before it, and no further one is met. */
static void expect_range(size_t at)
{
    static const uint32_t every[3][NODE_WORDS] = {{OR, 1, 3}, {EVERY, 1, 2}, {EQUAL, X(1), X(1)}};
    static const uint32_t find[3][NODE_WORDS] = {{OR, 1, 3}, {SOME, 1, 2}, {EQUAL, X(1), X(0)}};
    const struct values *values = &named[at].values;
    uint32_t query[6][NODE_WORDS];
    memcpy(query[3], named[at].query, sizeof named[at].query);
    memcpy(query, every, sizeof every);
    bool holds = answers(query, 3 + named[at].nodes, 0, TRUTH_TRUE, (uint32_t)values->count);
    memcpy(query, find, sizeof find);
    for (uint32_t i = 0; i < values->count; i++)
        holds = holds && answers(query, 3 + named[at].nodes, values->cells[i], TRUTH_TRUE, i + 1);
    if (!check(holds))
        printf("the range over %s is another\n", named[at].name);
}

static void check_named(void)
{
    static const uint32_t arities[] = {2, 1, 6};
    for (size_t i = 0; i < sizeof named / sizeof *named; i++) {
        start(3, arities);
        add_rows(named[i].words, named[i].used);
        expect_range(i);
    }
}

/* 4,096 words of which all cells but the last are 5. */
static void check_full_plot(void)
{
    const uint32_t arity = 1;
    start(1, &arity);
    while (plot.length < MOST_WORDS - 2)
        add_rows((const uint32_t[]){0, 5}, 2);
    add_rows((const uint32_t[]){0, 6}, 2);
    expect_values("a full plot with a new value in its last word", &(const struct values){2, {5, 6}}, 0);
}

int main(void)
{
    static const uint32_t arities[] = {2, 1};
    for (size_t i = 0; i < sizeof plots / sizeof *plots; i++) {
        start(2, arities);
        add_rows(plots[i].words, plots[i].used);
        expect_values(plots[i].name, &plots[i].values, 1);
    }
    check_relation_numbers();
    check_named();
    check_full_plot();
    return finish_checks();
}
