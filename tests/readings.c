/*
 * Document 01's "Readings to hold up beside the rules", what a row costs, values named in the query, and a history with
 * a log, asked of the library and of the reference at once.
 */
#include "differential/compare.h"
#include "support/checks.h"

#include <stdio.h>
#include <string.h>

#define M(null)     (CONSTANTS + (null))
#define X(variable) (FIRST_VARIABLE + (variable))

struct plot_text {
    uint32_t relations;
    uint32_t arities[2];
    size_t used;
    uint32_t words[12];
};

struct query_text {
    size_t nodes;
    uint32_t words[7][NODE_WORDS];
};

static const struct plot_text no_rows = {1, {1}, 0, {0}};
static const struct plot_text row_1_m1 = {1, {2}, 3, {0, 1, M(1)}};
static const struct plot_text row_m1_m2 = {1, {2}, 3, {0, M(1), M(2)}};
static const struct plot_text row_m1_m2_m2 = {1, {3}, 4, {0, M(1), M(2), M(2)}};
static const struct plot_text row_m1_m1_6 = {1, {3}, 4, {0, M(1), M(1), 6}};
static const struct plot_text two_relations = {2, {1, 1}, 4, {0, 201, 1, M(1)}};
static const struct plot_text row_m1 = {1, {1}, 2, {0, M(1)}};
static const struct plot_text rows_m1_8 = {1, {1}, 4, {0, M(1), 0, 8}};
static const struct plot_text row_5 = {1, {1}, 2, {0, 5}};
static const struct plot_text row_m200 = {1, {1}, 2, {0, M(200)}};
static const struct plot_text three_pairs = {1, {2}, 9, {0, 5, 6, 0, 5, M(1), 0, 5, 7}};
static const struct plot_text six_rows = {2, {1, 1}, 12, {0, 5, 1, 7, 0, 6, 0, M(1), 0, 6, 0, 9}};

static const struct query_text stands = {1, {{ROW_STANDS, 0, X(0)}}};
static const struct query_text stands_in_1 = {1, {{ROW_STANDS, 1, X(0)}}};
static const struct query_text every_stands = {
    4, {{EVERY, 0, 1}, {OR, 2, 3}, {ROW_STANDS, 0, X(0)}, {ROW_STANDS, 1, X(0)}}};
static const struct query_text stands_2 = {1, {{ROW_STANDS, 0, X(0), X(1)}}};
static const struct query_text stands_3 = {1, {{ROW_STANDS, 0, X(0), X(1), X(2)}}};
static const struct query_text equal = {1, {{EQUAL, X(0), X(1)}}};
static const struct query_text without = {4, {{AND, 1, 2}, {ROW_STANDS, 0, X(0)}, {NOT, 3}, {ROW_STANDS, 1, X(0)}}};
static const struct query_text without_without = {7,
                                                  {{AND, 1, 2},
                                                   {ROW_STANDS, 0, X(0)},
                                                   {NOT, 3},
                                                   {AND, 4, 5},
                                                   {ROW_STANDS, 0, X(0)},
                                                   {NOT, 6},
                                                   {ROW_STANDS, 1, X(0)}}};
static const struct query_text zero_or_not = {
    7, {{SOME, 0, 1}, {AND, 2, 3}, {ROW_STANDS, 0, X(0)}, {OR, 4, 5}, {EQUAL, X(0), 0}, {NOT, 6}, {EQUAL, X(0), 0}}};
static const struct query_text some_equal = {2, {{SOME, 0, 1}, {EQUAL, X(0), X(0)}}};
static const struct query_text every_equal = {2, {{EVERY, 0, 1}, {EQUAL, X(0), X(0)}}};
static const struct query_text every_7 = {2, {{EVERY, 0, 1}, {EQUAL, X(0), 7}}};
static const struct query_text some_unused_201 = {
    5, {{SOME, 0, 1}, {AND, 2, 3}, {EQUAL, X(0), 201}, {NOT, 4}, {ROW_STANDS, 0, X(0)}}};
static const struct query_text some_unused = {
    5, {{SOME, 0, 1}, {AND, 2, 3}, {EQUAL, X(0), X(1)}, {NOT, 4}, {ROW_STANDS, 0, X(0)}}};
static const struct query_text some_7_and_9 = {4, {{AND, 2, 1}, {EQUAL, 9, 9}, {SOME, 0, 3}, {EQUAL, X(0), 7}}};
static const struct query_text every_in_some = {4, {{EVERY, 0, 1}, {SOME, 1, 2}, {NOT, 3}, {EQUAL, X(1), 6}}};

struct reading {
    const char *name;
    const struct plot_text *plot;
    struct {
        uint32_t null; /* 0 for none */
        uint32_t cell;
    } substitution;
    const struct query_text *query;
    struct any_cells candidate;
    uint32_t budget;
    uint32_t number;
    uint32_t truth;
    uint32_t cost;
};

enum { NO = TRUTH_FALSE, UNKNOWN = TRUTH_UNKNOWN, YES = TRUTH_TRUE };

static const struct reading readings[] = {
    {"1: (1, m1)", &row_1_m1, {0, 0}, &stands_2, {{M(1), 2}, 2}, 9, 0, NO, 2},
    {"2: (m1, m2)", &row_m1_m2, {0, 0}, &stands_2, {{1, 2}, 2}, 9, 0, UNKNOWN, 2},
    {"3: (m1, m2, m2)", &row_m1_m2_m2, {0, 0}, &stands_3, {{M(3), M(3), 5}, 3}, 9, 0, UNKNOWN, 2},
    {"4: (m1, m1, 6)", &row_m1_m1_6, {0, 0}, &stands_3, {{M(2), 5, M(2)}, 3}, 9, 0, NO, 2},
    {"5: m1 = m1", &no_rows, {0, 0}, &equal, {{M(1), M(1)}, 2}, 9, 0, YES, 1},
    {"5: m1 = m2", &no_rows, {0, 0}, &equal, {{M(1), M(2)}, 2}, 9, 0, UNKNOWN, 1},
    {"6: the whole case", &two_relations, {0, 0}, &without, {{201}, 1}, 100, 0, UNKNOWN, 4},
    {"6: after m1 by 201", &two_relations, {1, 201}, &without, {{201}, 1}, 100, 0, NO, 4},
    {"6: after m1 by 202", &two_relations, {1, 202}, &without, {{201}, 1}, 100, 0, YES, 4},
    {"7: without twice", &two_relations, {0, 0}, &without_without, {{201}, 1}, 100, 0, UNKNOWN, 6},
    {"8: x = 0 or not x = 0", &row_m1, {0, 0}, &zero_or_not, {{0}, 0}, 100, 0, UNKNOWN, 7},
    {"9: some x, x = x, no rows", &no_rows, {0, 0}, &some_equal, {{0}, 0}, 0, 0, NO, 0},
    {"9: every x, x = x, no rows", &no_rows, {0, 0}, &every_equal, {{0}, 0}, 0, 0, YES, 0},
    {"10: every x, x = 7", &rows_m1_8, {0, 0}, &every_7, {{0}, 0}, 9, 0, NO, 2},
    {"10: after m1 by 8", &rows_m1_8, {1, 8}, &every_7, {{0}, 0}, 9, 0, NO, 1},
    {"11: allowance 3", &two_relations, {0, 0}, &without, {{201}, 1}, 3, 46, 0, 0},
    {"11: allowance 4", &two_relations, {0, 0}, &without, {{201}, 1}, 4, 0, UNKNOWN, 4},
};

/*
 * "1 plus the rows of its sheet up to and including the first identical one, or all of them where none is identical":
 * relation 0 of the six rows has (5), (6), (m1), (6) and (9), with relation 1's (7) after the first. The budget is the
 * cost.
 */
static const struct reading charges[] = {
    {"charge: the first row", &six_rows, {0, 0}, &stands, {{5}, 1}, 2, 0, YES, 2},
    {"charge: one that stands twice, behind relation 1", &six_rows, {0, 0}, &stands, {{6}, 1}, 3, 0, YES, 3},
    {"charge: m1, after rows that unify", &six_rows, {0, 0}, &stands, {{M(1)}, 1}, 4, 0, YES, 4},
    {"charge: the last row, after one that unifies", &six_rows, {0, 0}, &stands, {{9}, 1}, 6, 0, YES, 6},
    {"charge: none identical, one unifies", &six_rows, {0, 0}, &stands, {{8}, 1}, 6, 0, UNKNOWN, 6},
    {"charge: identical in relation 1 alone", &six_rows, {0, 0}, &stands, {{7}, 1}, 6, 0, UNKNOWN, 6},
    {"charge: the only row", &six_rows, {0, 0}, &stands_in_1, {{7}, 1}, 2, 0, YES, 2},
    {"charge: none identical, none unifies", &six_rows, {0, 0}, &stands_in_1, {{6}, 1}, 2, 0, NO, 2},
    {"charge: m1, after m1 by 5 in the candidate too", &six_rows, {1, 5}, &stands, {{5}, 1}, 2, 0, YES, 2},
    {"charge: 8, after m1 by 5", &six_rows, {1, 5}, &stands, {{8}, 1}, 6, 0, NO, 6},
    {"charge: 8, after m1 by 8", &six_rows, {1, 8}, &stands, {{8}, 1}, 4, 0, YES, 4},
    {"charge: no rows", &no_rows, {0, 0}, &stands, {{5}, 1}, 1, 0, NO, 1},
    {"charge: rows that agree in a column, or unify, before it",
     &three_pairs,
     {0, 0},
     &stands_2,
     {{5, 7}, 2},
     4,
     0,
     YES,
     4},
    {"charge: every value of the six rows", &six_rows, {0, 0}, &every_stands, {{0}, 0}, 23, 0, YES, 23},
};

/*
 * "Some" and "every" range over the plot's values and then the query's own constants, by node and word: 201 "stands
 * only in the question". The budget is the cost.
 */
static const struct reading named[] = {
    {"named: some unused, 201", &row_5, {0, 0}, &some_unused_201, {{0}, 0}, 4, 0, YES, 4},
    {"named: some unused, no rows", &no_rows, {0, 0}, &some_unused_201, {{0}, 0}, 2, 0, YES, 2},
    {"named: some unused, the candidate's 201", &row_5, {0, 0}, &some_unused, {{0, 201}, 2}, 1, 0, NO, 1},
    {"named: every x, x = 7, no rows", &no_rows, {0, 0}, &every_7, {{0}, 0}, 1, 0, YES, 1},
    {"named: 9 in node 1, before 7 in node 3", &row_5, {0, 0}, &some_7_and_9, {{0}, 0}, 4, 0, YES, 4},
    {"named: 6 as the value of both quantifiers", &row_m1, {0, 0}, &every_in_some, {{0}, 0}, 4, 0, UNKNOWN, 4},
    {"named: 6 after m1 by 6", &row_m1, {1, 6}, &every_in_some, {{0}, 0}, 1, 0, NO, 1},
};

static void check_named(const char *name, bool holds)
{
    if (!check(holds))
        printf("reading %s does not hold\n", name);
}

static struct any_plot plot;
static struct any_query query;

static void start_plot(const struct plot_text *text)
{
    plot.header_length = HEADER_WORDS;
    header_of_rows(plot.header, text->relations, text->arities, text->words, text->used);
    plot.length = text->used;
    memcpy(plot.words, text->words, sizeof text->words);
}

static void check_reading(const struct reading *reading)
{
    uint32_t count;
    uint32_t truth;
    uint32_t cost;
    start_plot(reading->plot);
    query.length = reading->query->nodes * NODE_WORDS;
    memcpy(query.words, reading->query->words, sizeof reading->query->words);
    if (reading->substitution.null != 0)
        both_substitute(&plot, reading->substitution.null, reading->substitution.cell, &count);
    size_t need = list_need(&plot, &query);
    uint32_t number = both_ask(&plot, &query, &reading->candidate, need, reading->budget, &truth, &cost);
    bool same = number == 0 && truth == reading->truth && cost == reading->cost;
    check_named(reading->name, number == reading->number && (number != 0 || same));
}

/* Asks with the cost as budget, which is enough, and with one less. */
static void check_charge(const struct reading *charge)
{
    struct reading refused = *charge;
    refused.budget--;
    refused.number = 46;
    check_reading(charge);
    check_reading(&refused);
}

/* Reading 12: the limits of nulls and of nodes. */
static void check_limits(void)
{
    static const struct any_cells none;
    uint32_t count = 0;
    uint32_t truth;
    uint32_t cost;
    start_plot(&row_m200);
    check_named("12: mark 0", both_substitute(&plot, 0, 5, &count) == 29);
    check_named("12: mark 201", both_substitute(&plot, NULLS + 1, 5, &count) == 29);
    bool replaced = both_substitute(&plot, NULLS, 5, &count) == 0;
    check_named("12: mark 200", replaced && count == 1 && plot.words[1] == 5);
    memset(query.words, 0, sizeof query.words);
    for (uint32_t node = 0; node < MOST_NODES; node++) {
        query.words[node * NODE_WORDS] = node + 1 < MOST_NODES ? NOT : EQUAL;
        query.words[node * NODE_WORDS + 1] = node + 1 < MOST_NODES ? node + 1 : 0;
    }
    query.length = MOST_NODES * NODE_WORDS;
    size_t need = list_need(&plot, &query); /* the plot's cell, and the two terms of `0 = 0` */
    bool answered = both_ask(&plot, &query, &none, need, 1, &truth, &cost) == 0;
    check_named("12: 100 nodes", need == 3 && answered && truth == NO);
    query.length += NODE_WORDS;
    check_named("12: 808 words", both_ask(&plot, &query, &none, need, 1, &truth, &cost) == 21);
}

/* A step of the history: the call, what it returns, and the words in use of plot and log after it. */
struct step {
    const char *name;
    enum { LOGGED_FILL, UNDONE_FILL, ENTERED_ROW } call;
    uint32_t null; /* of a logged fill */
    uint32_t cell; /* of a logged fill, or of an entered row */
    uint32_t number;
    uint32_t count;
    uint32_t used;
    uint32_t words[6];
    size_t log_used;
    uint32_t log_words[8];
};

/* The rows (m1) and (8), with room for one more row, and a log of 8 words. */
static const struct step steps[] = {
    {"log: m1 by 8", LOGGED_FILL, 1, 8, 0, 1, 4, {0, 8, 0, 8}, 3, {1, 1, 1}},
    {"log: a row (m1)", ENTERED_ROW, 0, M(1), 0, 0, 6, {0, 8, 0, 8, 0, M(1)}, 3, {1, 1, 1}},
    {"log: m1 by 8 back", UNDONE_FILL, 0, 0, 0, 1, 6, {0, M(1), 0, 8, 0, M(1)}, 0, {0}},
    {"log: none to take back", UNDONE_FILL, 0, 0, 48, 0, 6, {0, M(1), 0, 8, 0, M(1)}, 0, {0}},
    {"log: m1 by m2", LOGGED_FILL, 1, M(2), 0, 2, 6, {0, M(2), 0, 8, 0, M(2)}, 4, {1, 5, 1, 2}},
    {"log: m1 in no cell", LOGGED_FILL, 1, 8, 43, 0, 6, {0, M(2), 0, 8, 0, M(2)}, 4, {1, 5, 1, 2}},
    {"log: m2 by 8", LOGGED_FILL, 2, 8, 0, 2, 6, {0, 8, 0, 8, 0, 8}, 8, {1, 5, 1, 2, 1, 5, 2, 2}},
    {"log: m2 by 8 back", UNDONE_FILL, 0, 0, 0, 2, 6, {0, M(2), 0, 8, 0, M(2)}, 4, {1, 5, 1, 2}},
    {"log: m2 by itself", LOGGED_FILL, 2, M(2), 0, 2, 6, {0, M(2), 0, 8, 0, M(2)}, 8, {1, 5, 1, 2, 1, 5, 2, 2}},
    {"log: a full log", LOGGED_FILL, 2, 7, 47, 0, 6, {0, M(2), 0, 8, 0, M(2)}, 8, {1, 5, 1, 2, 1, 5, 2, 2}},
    {"log: m2 by itself back", UNDONE_FILL, 0, 0, 0, 2, 6, {0, M(2), 0, 8, 0, M(2)}, 4, {1, 5, 1, 2}},
    {"log: m1 by m2 back", UNDONE_FILL, 0, 0, 0, 2, 6, {0, M(1), 0, 8, 0, M(1)}, 0, {0}},
};

static uint32_t take_step(const struct step *step, struct any_log *log, uint32_t *count)
{
    const struct any_cells row = {{step->cell}, 1};
    switch (step->call) {
    case LOGGED_FILL:
        return both_substitute_logged(&plot, log, step->null, step->cell, count);
    case UNDONE_FILL:
        return both_undo(&plot, log, count);
    case ENTERED_ROW:
        break;
    }
    return both_insert(&plot, 0, &row);
}

static void check_history(void)
{
    static struct any_log log = {.length = 8};
    start_plot(&rows_m1_8);
    plot.length = 6;
    for (size_t i = 0; i < sizeof steps / sizeof *steps; i++) {
        const struct step *step = &steps[i];
        uint32_t count = 0;
        uint32_t number = take_step(step, &log, &count);
        bool same = number == step->number && (number != 0 || count == step->count) &&
                    plot.header[HEADER_USED] == step->used && log.used == step->log_used;
        same = same && count_of(plot.header, 0) == step->used / 2; /* rows of one column */
        same = same && memcmp(plot.words, step->words, step->used * sizeof *step->words) == 0;
        same = same && memcmp(log.words, step->log_words, step->log_used * sizeof *step->log_words) == 0;
        check_named(step->name, same);
    }
}

/* The longest entry: null 1 in each of the 3,510 cells of 585 rows. */
static void check_longest_entry(void)
{
    static struct any_log log;
    const uint32_t arity = MOST_COLUMNS;
    const uint32_t rows = MOST_WORDS / (1 + MOST_COLUMNS);
    uint32_t count = 0;
    header_start(plot.header, 1, &arity);
    for (uint32_t row = 0; row < rows; row++) {
        uint32_t *words = plot.words + plot.header[HEADER_USED];
        words[0] = 0;
        for (uint32_t column = 1; column <= MOST_COLUMNS; column++)
            words[column] = M(1);
        header_add_row(plot.header, 0);
    }
    plot.length = plot.header[HEADER_USED];
    log.length = 3511;
    check_named("log: 3,511 words", both_substitute_logged(&plot, &log, 1, M(2), &count) == 47);
    log.length = 3512;
    bool logged = both_substitute_logged(&plot, &log, 1, M(2), &count) == 0;
    check_named("log: 3,512 words", logged && count == 3510 && log.used == 3512 && log.words[3509] == 4094);
    bool undone = both_undo(&plot, &log, &count) == 0;
    check_named("log: 3,512 words back", undone && count == 3510 && log.used == 0 && plot.words[4094] == M(1));
}

int main(void)
{
    for (size_t i = 0; i < sizeof readings / sizeof *readings; i++)
        check_reading(&readings[i]);
    for (size_t i = 0; i < sizeof charges / sizeof *charges; i++)
        check_charge(&charges[i]);
    for (size_t i = 0; i < sizeof named / sizeof *named; i++)
        check_charge(&named[i]);
    check_limits();
    check_history();
    check_longest_entry();
    return finish_checks();
}
