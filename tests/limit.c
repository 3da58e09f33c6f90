/*
 * Queries at the limits, asked of the library alone, with a working list and without one.
 *
 * Costs at the limit of 32 bits: the reference would take too long, but the costs can be added up by hand. Relation 0
 * has 2,046 rows, 2,043 times (0) and then three times (1); the queries range over these two. "Stands in relation 0"
 * costs 1 and the rows up to and including the first identical one, or all of them:
 *
 *   0                                                             1 + 1 = 2
 *   1                                                             1 + 2,044 = 2,045
 *   5, a cell of the candidate                                    1 + 2,046 = 2,047
 *
 *   every x: x = x and every x: x = x and .. 20 times over        2 + 4 + .. + 2^20 = 2^21 - 2
 *   every x, 20 of them above one another: not 5 stands in
 *     relation 0, and every x: x stands in relation 0             2^20 * (2,047 + 2 + 2,045) = 2^32 - 2^21
 *   0 = 0                                                         1
 *
 * The two long parts and one equality cost 2^32 - 1, the most that a budget can cover. The row asked last is (1), and
 * its count ends two rows before the relation does.
 */
#include "plotask.h"
#include "reference/reference.h"
#include "support/checks.h"

#include <inttypes.h>
#include <stdio.h>
#include <string.h>

/* X is bound by the quantifiers, Y is the candidate's second cell. */
enum { ROWS = 2046, ROWS_OF_0 = 2043, X = FIRST_VARIABLE, Y };

static uint32_t query[MOST_NODES + 1][NODE_WORDS];
static uint32_t node_count;

/* The plot that is asked. A query may be asked with another length of header or plot than these have. */
static uint32_t header[HEADER_WORDS + 1];
static size_t header_length;
static uint32_t words[MOST_WORDS];
static size_t length;

/* The candidate has two cells, or none. */
static uint32_t candidate[2];
static size_t candidate_length;

static void start_query(void)
{
    memset(query, 0, sizeof query);
    node_count = 0;
}

static void add_node(uint32_t kind, uint32_t first, uint32_t second)
{
    query[node_count][0] = kind;
    query[node_count][1] = first;
    query[node_count][2] = second;
    node_count++;
}

static void add_row(uint32_t relation, uint32_t first, uint32_t step)
{
    words[length++] = relation;
    for (uint32_t column = 0; column < arity_of(header, relation); column++)
        words[length++] = first + column * step;
    header_add_row(header, relation);
}

static void start_plot(uint32_t relations, const uint32_t *arities)
{
    header_start(header, relations, arities);
    header_length = HEADER_WORDS;
    length = 0;
}

struct answer {
    uint32_t number;
    uint32_t truth;
    uint32_t cost;
};

/* What no call writes. */
static const struct answer unwritten = {99, 99, 99};

/* A working list, with a word behind what any query needs. */
static uint32_t list[PLOTASK_LIST_WORDS + 1];
static size_t list_length = PLOTASK_LIST_WORDS;

/* Has the candidate's second cell hold this. */
static void set_candidate(uint32_t cell)
{
    candidate[1] = cell;
    candidate_length = 2;
}

static struct answer ask_listed(uint32_t budget)
{
    struct answer answer = unwritten;
    answer.number = plotask_ask(header, header_length, words, length, query[0], node_count * NODE_WORDS, candidate,
                                candidate_length, list, list_length, budget, &answer.truth, &answer.cost);
    return answer;
}

static struct answer ask_unlisted(uint32_t budget)
{
    struct answer answer = unwritten;
    answer.number = plotask_ask_unlisted(header, header_length, words, length, query[0], node_count * NODE_WORDS,
                                         candidate, candidate_length, budget, &answer.truth, &answer.cost);
    return answer;
}

static bool is_answer(const struct answer *given, const struct answer *expected)
{
    return given->number == expected->number && given->truth == expected->truth && given->cost == expected->cost;
}

static void check_given(const char *name, const char *way, struct answer given, const struct answer *expected)
{
    if (!check(is_answer(&given, expected)))
        printf("%s, %s a list: number %" PRIu32 ", truth %" PRIu32 ", cost %" PRIu32 "\n", name, way, given.number,
               given.truth, given.cost);
}

/* Checks that the query has this answer by both ways. A refused one writes no truth and no cost. */
static void check_answer(const char *name, uint32_t budget, const struct answer *expected)
{
    check_given(name, "with", ask_listed(budget), expected);
    check_given(name, "without", ask_unlisted(budget), expected);
}

static void check_truth(const char *name, uint32_t budget, uint32_t truth, uint32_t cost)
{
    check_answer(name, budget, &(const struct answer){0, truth, cost});
}

static void check_refusal(const char *name, uint32_t budget, uint32_t number)
{
    check_answer(name, budget, &(const struct answer){number, unwritten.truth, unwritten.cost});
}

/* Both parts, after a number of equalities. */
static void make_costly_query(size_t equalities)
{
    start_query();
    for (size_t i = 0; i < equalities; i++) {
        add_node(AND, node_count + 1, node_count + 2);
        add_node(EQUAL, 0, 0);
    }
    add_node(AND, node_count + 1, node_count + 1 + 59); /* the part on its left has 59 nodes */
    for (size_t i = 0; i < 20; i++) {
        add_node(EVERY, 0, node_count + 1);
        if (i < 19)
            add_node(AND, node_count + 1, node_count + 2);
        add_node(EQUAL, X, X);
    }
    for (size_t i = 0; i < 20; i++)
        add_node(EVERY, 0, node_count + 1);
    add_node(AND, node_count + 1, node_count + 3);
    add_node(NOT, node_count + 1, 0);
    add_node(ROW_STANDS, 0, Y);
    add_node(EVERY, 0, node_count + 1);
    add_node(ROW_STANDS, 0, X);
}

static void check_costs(void)
{
    const uint32_t arity = 1;
    start_plot(1, &arity);
    for (uint32_t row = 0; row < ROWS; row++)
        add_row(0, row >= ROWS_OF_0, 0);
    set_candidate(5);
    make_costly_query(1);
    check_truth("the highest cost", UINT32_MAX, TRUTH_TRUE, UINT32_MAX);
    make_costly_query(2);
    check_refusal("one more than the highest cost", UINT32_MAX, 46);
    check_refusal("one more than the highest cost, budget 0", 0, 46);
    candidate_length = 0;
}

/* A quantifier over the values above an equality of each value and a term. */
static void make_value_query(uint32_t kind, uint32_t term)
{
    start_query();
    add_node(kind, 0, 1);
    add_node(EQUAL, X, term);
}

/* 4,096 words with as many cells as there can be, all of them different: 584 rows of six and two of three. */
static void check_most_values(void)
{
    static const uint32_t arities[] = {6, 3};
    uint32_t values = 0;
    start_plot(2, arities);
    while (length < MOST_WORDS - 8) {
        add_row(0, 100 * values, 100);
        values += 6;
    }
    for (; length < MOST_WORDS; values += 3)
        add_row(1, 100 * values, 100);
    check(length == MOST_WORDS && values == PLOTASK_CELLS);
    make_value_query(EVERY, X);
    check_truth("3,510 values", values, TRUTH_TRUE, values);
    check_refusal("3,510 values, one too many for the budget", values - 1, 46);
    make_value_query(SOME, words[length - 1]);
    check_truth("the last of 3,510 values", values, TRUTH_TRUE, values);
    make_value_query(SOME, words[length - 1] + 1);
    check_truth("a constant behind 3,510 values", values + 1, TRUTH_TRUE, values + 1);
    check_refusal("a constant behind 3,510 values, one too many for the budget", values, 46);
    make_value_query(SOME, Y);
    set_candidate(words[length - 1] + 1);
    check_truth("none of 3,510 values", values, TRUTH_FALSE, values);
    candidate_length = 0;
}

/* "Some" above a chain of "and" with 50 rows of six constants. The first is given; each next one is a step higher. */
static void make_widest_query(uint32_t first, uint32_t step)
{
    start_query();
    add_node(SOME, 0, 1);
    while (node_count < MOST_NODES - 1) {
        add_node(AND, node_count + 1, node_count + 2);
        add_node(ROW_STANDS, 0, 0);
    }
    add_node(ROW_STANDS, 0, 0);
    for (uint32_t node = 1; node < MOST_NODES; node++)
        for (uint32_t i = 2; query[node][0] == ROW_STANDS && i < NODE_WORDS; i++, first += step)
            query[node][i] = first;
}

static void fill_list(uint32_t word)
{
    for (size_t i = 0; i <= PLOTASK_LIST_WORDS; i++)
        list[i] = word;
}

/* Whether the list begins with the plot's values and that many constants, and has `behind` in all words after these. */
static bool list_is(uint32_t first, uint32_t step, size_t constants, uint32_t behind)
{
    size_t at = 0;
    bool same = true;
    for (size_t i = 0; i < length; i += 1 + arity_of(header, words[i]))
        for (size_t column = 1; column <= arity_of(header, words[i]); column++)
            same = same && list[at++] == words[i + column];
    for (size_t i = 0; i < constants; i++, first += step)
        same = same && list[at++] == first;
    while (at <= PLOTASK_LIST_WORDS)
        same = same && list[at++] == behind;
    return same;
}

/*
 * The most words that a list can need, over the plot of 3,510 values as it is: 300 constants more, all different or all
 * the same. The first row is not among the 584 of relation 0, so that each value costs 585 and the rest is not asked.
 */
static void check_longest_list(void)
{
    static const struct {
        const char *name;
        uint32_t step;
        size_t constants;
    } cases[] = {{"300 different constants", 100, 300}, {"300 equal constants", 0, 1}};
    const struct answer short_list = {45, unwritten.truth, unwritten.cost};
    for (size_t i = 0; i < 2; i++) {
        uint32_t cost = 585 * (uint32_t)(PLOTASK_CELLS + cases[i].constants);
        make_widest_query(1, cases[i].step);
        check(node_count == MOST_NODES);
        fill_list(77);
        check_truth(cases[i].name, cost, TRUTH_FALSE, cost);
        check(list_is(1, cases[i].step, cases[i].constants, 77));
        fill_list(78);
        check_refusal(cases[i].name, cost - 1, 46);
        check(list_is(1, cases[i].step, cases[i].constants, 78));
        fill_list(79);
        list_length = PLOTASK_LIST_WORDS - 1;
        check_given(cases[i].name, "with one word less of", ask_listed(UINT32_MAX), &short_list);
        check(list[0] == 79 && memcmp(list, list + 1, PLOTASK_LIST_WORDS * sizeof *list) == 0);
        list_length = PLOTASK_LIST_WORDS;
    }
}

/* 100 nodes in one chain, over the plot as it is: each quantifier stops at its first value. */
static void check_most_nodes(void)
{
    start_query();
    while (node_count < MOST_NODES - 1)
        add_node(SOME, node_count % VARIABLES, node_count + 1);
    add_node(EQUAL, X, X);
    check_truth("100 nodes", 1, TRUTH_TRUE, 1);
    query[MOST_NODES - 1][0] = SOME;
    query[MOST_NODES - 1][1] = 0;
    query[MOST_NODES - 1][2] = MOST_NODES;
    add_node(EQUAL, X, X);
    check_refusal("101 nodes", 1, 21);
}

/* Lengths of the header and of the plot that do not fit, and slices of no words. */
static void check_lengths(void)
{
    size_t used = length;
    make_value_query(EVERY, X);
    header_length = HEADER_WORDS - MOST_RELATIONS;
    check_refusal("a header without its counts", UINT32_MAX, 41);
    header_length = HEADER_WORDS - 1;
    check_refusal("a header that lacks a word", UINT32_MAX, 41);
    header_length = HEADER_WORDS + 1;
    check_refusal("a header with a word more", UINT32_MAX, 41);
    header_length = 0;
    check_refusal("a header of no words", UINT32_MAX, 41);
    header_length = HEADER_WORDS;
    length = used - 1;
    check_refusal("a plot that lacks its last word", UINT32_MAX, 41);
    length = 0;
    check_refusal("a plot of no words, for a header with words in use", UINT32_MAX, 41);
    header_drop_rows(header);
    check_truth("a plot of no words", 0, TRUTH_TRUE, 0);
    make_value_query(SOME, X);
    check_truth("a plot of no words, some value", 0, TRUTH_FALSE, 0);
    make_value_query(SOME, X + 1);
    check_refusal("a variable of the candidate, which has no cells", UINT32_MAX, 24);
    node_count = 0;
    check_refusal("a query of no words", UINT32_MAX, 21);
}

/* As many rows as a plot can have, all of them (0); the row asked is not among them, so its cost counts them. */
static void check_most_rows(void)
{
    const uint32_t arity = 1;
    start_plot(1, &arity);
    while (length < MOST_WORDS)
        add_row(0, 0, 0);
    start_query();
    add_node(ROW_STANDS, 0, 5);
    check_truth("2,048 rows", 2049, TRUTH_FALSE, 2049);
    check_refusal("2,048 rows, one too many for the budget", 2048, 46);
    header[HEADER_COUNTS] = 2049;
    check_refusal("2,048 rows, counted as one more", UINT32_MAX, 41);
    header[HEADER_COUNTS] = 2047;
    check_refusal("2,048 rows, counted as one fewer", UINT32_MAX, 41);
    node_count = 0;
    check_refusal("2,048 rows, counted as one fewer, and a query of no words", 0, 41);
}

int main(void)
{
    check_costs();
    check_most_values();
    check_longest_list();
    check_most_nodes();
    check_lengths();
    check_most_rows();
    return finish_checks();
}
