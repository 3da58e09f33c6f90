#include "worked.h"
#include "judge.h"
#include "support/checks.h"

#include <stdio.h>
#include <string.h>

#define M(null)     (CONSTANTS + (null))
#define X(variable) (FIRST_VARIABLE + (variable))

/* A plot of one relation. */
struct plot_text {
    uint32_t arity;
    size_t used;
    uint32_t words[3];
};

struct query_text {
    size_t nodes;
    uint32_t words[7][NODE_WORDS];
};

static const struct plot_text no_rows = {1, 0, {0}};
static const struct plot_text row_m1 = {1, 2, {0, M(1)}};
static const struct plot_text row_1_m1 = {2, 3, {0, 1, M(1)}};

static const struct query_text zero_or_not = {
    7, {{SOME, 0, 1}, {AND, 2, 3}, {ROW_STANDS, 0, X(0)}, {OR, 4, 5}, {EQUAL, X(0), 0}, {NOT, 6}, {EQUAL, X(0), 0}}};
static const struct query_text zero_and_not = {
    7, {{SOME, 0, 1}, {AND, 2, 3}, {ROW_STANDS, 0, X(0)}, {AND, 4, 5}, {EQUAL, X(0), 0}, {NOT, 6}, {EQUAL, X(0), 0}}};
static const struct query_text some_equal = {4,
                                             {{SOME, 0, 1}, {AND, 2, 3}, {ROW_STANDS, 0, X(0)}, {EQUAL, X(0), X(0)}}};
static const struct query_text one_and_two = {3, {{AND, 1, 2}, {EQUAL, X(0), 1}, {EQUAL, X(0), 2}}};
static const struct query_text one_or_two = {3, {{OR, 1, 2}, {EQUAL, X(0), 1}, {EQUAL, X(0), 2}}};
static const struct query_text same_or_one = {
    5, {{OR, 1, 2}, {EQUAL, X(0), X(1)}, {OR, 3, 4}, {EQUAL, X(0), 1}, {EQUAL, X(1), 1}}};
static const struct query_text stands = {1, {{ROW_STANDS, 0, X(0)}}};
static const struct query_text stands_2 = {1, {{ROW_STANDS, 0, X(0), X(1)}}};
static const struct query_text equal_1 = {1, {{EQUAL, X(0), 1}}};
static const struct query_text some_7 = {2, {{SOME, 0, 1}, {EQUAL, X(0), 7}}};
static const struct query_text some_candidate = {2, {{SOME, 1, 1}, {EQUAL, X(1), X(0)}}};
static const struct query_text not_not = {3, {{NOT, 1}, {NOT, 2}, {EQUAL, X(0), X(0)}}};
static const struct query_text every_stands = {2, {{EVERY, 0, 1}, {ROW_STANDS, 0, X(0)}}};

struct worked {
    const char *name;
    const struct plot_text *plot;
    const struct query_text *query;
    struct any_cells candidate;
    uint32_t truth;
    uint32_t cost;
    bool plain;
    size_t completions;
    size_t yeses[COMPLETED_BUT_CANDIDATE + 1]; /* by how the completions are asked */
};

enum { NO = TRUTH_FALSE, UNKNOWN = TRUTH_UNKNOWN, YES = TRUTH_TRUE };

static const struct worked worked[] = {
    {"case 8: x = 0 or not x = 0", &row_m1, &zero_or_not, {{0}, 0}, UNKNOWN, 7, false, 3, {3, 3, 3}},
    {"the plain one beside it: x = x", &row_m1, &some_equal, {{0}, 0}, YES, 3, true, 2, {2, 2, 2}},
    {"x = 0 and not x = 0", &row_m1, &zero_and_not, {{0}, 0}, UNKNOWN, 8, false, 3, {0, 0, 0}},
    {"m1 = 1 and m1 = 2", &no_rows, &one_and_two, {{M(1)}, 1}, UNKNOWN, 2, true, 4, {0, 0, 0}},
    {"(1, m1) and (m1, 2)", &row_1_m1, &stands_2, {{M(1), 2}, 2}, NO, 2, true, 4, {0, 0, 0}},
    {"m1 in plot and candidate", &row_m1, &stands, {{M(1)}, 1}, YES, 2, true, 2, {2, 2, 0}},
    {"m1 in the candidate alone", &no_rows, &equal_1, {{M(1)}, 1}, UNKNOWN, 1, true, 3, {1, 1, 0}},
    {"a constant in no row", &row_m1, &some_7, {{0}, 0}, YES, 2, true, 3, {3, 1, 3}},
    {"a candidate that is not in range", &no_rows, &some_candidate, {{M(1)}, 1}, NO, 0, true, 2, {0, 0, 0}},
    {"a constant out of sight", &no_rows, &one_or_two, {{M(1)}, 1}, UNKNOWN, 2, true, 4, {2, 2, 0}},
    {"two constants out of sight", &no_rows, &same_or_one, {{M(1), M(2)}, 2}, UNKNOWN, 3, true, 9, {7, 7, 0}},
    {"not not, so not plain", &no_rows, &not_not, {{M(1)}, 1}, YES, 1, false, 2, {2, 2, 2}},
    {"every, so not plain", &row_m1, &every_stands, {{0}, 0}, YES, 2, false, 2, {2, 2, 2}},
};

static void start(const struct worked *text, struct asked *asked)
{
    asked->plot.header_length = HEADER_WORDS;
    header_of_rows(asked->plot.header, 1, &text->plot->arity, text->plot->words, text->plot->used);
    asked->plot.length = text->plot->used;
    memcpy(asked->plot.words, text->plot->words, sizeof text->plot->words);
    asked->query.length = text->query->nodes * NODE_WORDS;
    memcpy(asked->query.words, text->query->words, sizeof text->query->words);
    asked->candidate = text->candidate;
}

static bool is_as_worked(const struct worked *text, struct asked *asked, struct judged *judged)
{
    if (!judge(asked, judged) || broken_claim(judged) != NULL)
        return false;
    if (judged->truth != text->truth || judged->cost != text->cost)
        return false;
    if (judged->plain != text->plain || judged->count != text->completions)
        return false;
    for (enum completed_how how = COMPLETED; how <= COMPLETED_BUT_CANDIDATE; how++)
        if (yeses_asked(asked, judged, how) != text->yeses[how])
            return false;
    return true;
}

void check_worked(void)
{
    static struct asked asked;
    static struct judged judged;
    for (size_t i = 0; i < sizeof worked / sizeof *worked; i++) {
        start(&worked[i], &asked);
        if (!check(is_as_worked(&worked[i], &asked, &judged)))
            printf("%s: not as worked\n", worked[i].name);
    }
}
