#include "large.h"
#include "cases.h"
#include "differential/compare.h"
#include "judge.h"
#include "small.h"

#include <inttypes.h>
#include <stdio.h>
#include <string.h>

enum {
    MOST_LEAVES = 10000,
    MOST_COMPARED = 1000000, /* rows, at all leaves together */
    BUDGET = MOST_LEAVES + MOST_COMPARED,
    RANDOM_COMPLETIONS = 2,
    MANY_WORDS = 1000,
    FULL_WORDS = 4000
};

/* What each null is given, by its number. */
struct completion {
    uint32_t given[NULLS + 1];
};

struct large {
    struct asked asked;
    uint32_t truth;
    uint32_t cost;
    struct completion fresh;
    struct completion others[RANDOM_COMPLETIONS];
    bool fresh_yes;
    bool others_yes[RANDOM_COMPLETIONS];
};

static struct large large;
static struct model model;
/* The cells in sight: those of plot and candidate and the constants of the query, each once. */
static uint32_t in_sight[PLOT_ROOM + CELLS_ROOM];
static size_t in_sight_count;

/* The number of different nulls in a plot. */
static size_t count_nulls(const struct any_plot *plot)
{
    static uint32_t values[PLOT_ROOM];
    size_t count = values_of_plot(plot, values);
    size_t nulls = 0;
    for (size_t i = 0; i < count; i++)
        nulls += values[i] > CONSTANTS;
    return nulls;
}

/* An undamaged plot with more nulls than the small ones have; some have many words, and any of the 200 nulls. */
static void make_large_plot(struct random *random, struct palette *palette, struct any_plot *plot)
{
    uint32_t least = one_in(random, 16) ? MANY_WORDS : 0;
    do {
        *palette = make_palette(random);
        palette->wide |= least > 0 || one_in(random, 3);
        make_plot(random, palette, plot);
    } while (plot->header[HEADER_USED] < least || plot->header[HEADER_USED] > MOST_WORDS ||
             count_nulls(plot) <= COMPLETED_NULLS);
}

static void make_large(struct random *random, struct asked *asked)
{
    struct palette palette;
    make_large_plot(random, &palette, &asked->plot);
    make_candidate(random, &palette, &asked->candidate);
    do
        make_any_query(random, &palette, &asked->plot, &asked->candidate, &asked->query);
    while (asked->query.length > MOST_NODES * NODE_WORDS);
    if (one_in(random, 2))
        make_plain(&asked->query);
}

static void find_in_sight(const struct asked *asked)
{
    in_sight_count = range_of(&asked->plot, &asked->query, in_sight);
    in_sight_count = add_new(in_sight, in_sight_count, asked->candidate.cells, asked->candidate.length);
}

/* The lowest constants that are not in sight, since those are the likeliest to stand where nobody looked. */
static void give_fresh(struct completion *completion)
{
    uint32_t fresh = 0;
    for (size_t null = 1; null <= NULLS; null++) {
        while (is_among(in_sight, in_sight_count, fresh))
            fresh++;
        completion->given[null] = fresh++;
    }
}

/* Constants in sight, and fresh ones, also the same for several nulls. */
static void give_any(struct random *random, const struct completion *fresh, struct completion *completion)
{
    for (size_t null = 1; null <= NULLS; null++) {
        uint32_t cell = in_sight[below(random, in_sight_count)];
        bool from_sight = cell < CONSTANTS && !one_in(random, 4);
        completion->given[null] = from_sight ? cell : fresh->given[1 + below(random, NULLS)];
    }
}

/* A relation's number is no null's cell, so that it stays. */
static void complete(const struct completion *completion, uint32_t *words, size_t count)
{
    for (size_t i = 0; i < count; i++)
        if (words[i] > CONSTANTS)
            words[i] = completion->given[words[i] - CONSTANTS];
}

static void open_model(const struct asked *asked)
{
    model_open(&model, asked->plot.header, asked->plot.words, asked->candidate.cells, asked->candidate.length);
}

static bool says_yes(const struct asked *asked, const struct completion *completion, bool candidate_too)
{
    open_model(asked);
    complete(completion, model.words, model.header[HEADER_USED]);
    if (candidate_too)
        complete(completion, model.candidate, model.candidate_length);
    return two_valued_yes(&model, asked->query.words, asked->query.length);
}

/*
 * Two-valued logic does not stop early, so it is asked only if it ends soon. A completed plot has at most as many
 * values as the plot itself.
 */
static bool ends_soon(const struct asked *asked)
{
    open_model(asked);
    uint64_t leaves = two_valued_leaves(&model, asked->query.words, asked->query.length);
    uint64_t rows = 0;
    for (size_t relation = 0; relation < MOST_RELATIONS && has_kind(&asked->query, ROW_STANDS); relation++)
        rows += asked->plot.header[HEADER_COUNTS + relation];
    return leaves <= MOST_LEAVES && leaves * rows <= MOST_COMPARED;
}

static _Noreturn void fail_large(const char *what)
{
    print_asked(&large.asked);
    printf("truth %" PRIu32 ", cost %" PRIu32 "\n", large.truth, large.cost);
    print_words(large.fresh_yes ? "yes with" : "no with", large.fresh.given + 1, NULLS);
    for (size_t i = 0; i < RANDOM_COMPLETIONS; i++)
        print_words(large.others_yes[i] ? "yes with" : "no with", large.others[i].given + 1, NULLS);
    fail(what);
}

/* The budget is never exceeded: a leaf costs 1 and at most the rows of a relation. */
static void ask_large(struct random *random, struct asked *asked)
{
    size_t need = list_need(&asked->plot, &asked->query);
    if (both_ask(&asked->plot, &asked->query, &asked->candidate, need, BUDGET, &large.truth, &large.cost) != 0)
        fail("a query is refused that keeps every rule");
    find_in_sight(asked);
    give_fresh(&large.fresh);
    large.fresh_yes = says_yes(asked, &large.fresh, true);
    for (size_t i = 0; i < RANDOM_COMPLETIONS; i++) {
        give_any(random, &large.fresh, &large.others[i]);
        large.others_yes[i] = says_yes(asked, &large.others[i], true);
    }
}

static void check_large(void)
{
    bool is_true = large.truth == TRUTH_TRUE;
    if (is_plain(&large.asked.query) && is_true != large.fresh_yes)
        fail_large("plain, but not true exactly if the fresh completion says yes");
    if (!has_kind(&large.asked.query, NOT) && is_true != large.fresh_yes)
        fail_large("without a not, but not true exactly if the fresh completion says yes");
    if (large.truth == TRUTH_UNKNOWN)
        return;
    if (is_true != large.fresh_yes)
        fail_large("true or false, but the fresh completion says otherwise");
    for (size_t i = 0; i < RANDOM_COMPLETIONS; i++)
        if (is_true != large.others_yes[i])
            fail_large("true or false, but a completion says otherwise");
}

/* How many completions at random say yes. */
static size_t others_yes(void)
{
    size_t yeses = 0;
    for (size_t i = 0; i < RANDOM_COMPLETIONS; i++)
        yeses += large.others_yes[i];
    return yeses;
}

static void meet_answer(const struct asked *asked)
{
    static const enum plain_case of_truth[2][TRUTH_TRUE + 1] = {
        {LARGE_OTHER_FALSE, LARGE_OTHER_UNKNOWN, LARGE_OTHER_TRUE},
        {LARGE_PLAIN_FALSE, LARGE_PLAIN_UNKNOWN, LARGE_PLAIN_TRUE}};
    bool plain = is_plain(&asked->query);
    meet(of_truth[plain][large.truth]);
    if (plain && large.truth == TRUTH_UNKNOWN && others_yes() > 0)
        meet(LARGE_FRESH_DECIDES);
    if (!plain && large.truth == TRUTH_UNKNOWN && large.fresh_yes && others_yes() == RANDOM_COMPLETIONS)
        meet(LARGE_ALL_YES);
    if (plain && large.truth == TRUTH_TRUE && !says_yes(asked, &large.fresh, false))
        meet(LARGE_CANDIDATE_COMPLETED);
}

static bool candidate_has_own_null(const struct asked *asked)
{
    const struct any_cells *candidate = &asked->candidate;
    for (size_t i = 0; i < candidate->length; i++)
        if (candidate->cells[i] > CONSTANTS &&
            !is_among(asked->plot.words, asked->plot.header[HEADER_USED], candidate->cells[i]))
            return true;
    return false;
}

static void meet_large(const struct asked *asked)
{
    meet_answer(asked);
    if (count_nulls(&asked->plot) == NULLS)
        meet(LARGE_ALL_NULLS);
    if (asked->plot.header[HEADER_USED] > FULL_WORDS)
        meet(LARGE_FULL);
    if (candidate_has_own_null(asked))
        meet(LARGE_CANDIDATE_NULL);
}

enum large_round run_large(struct random *random)
{
    memset(&large, 0, sizeof large); /* a round follows from seed and number alone */
    make_large(random, &large.asked);
    if (!ends_soon(&large.asked))
        return LARGE_TOO_LARGE;
    ask_large(random, &large.asked);
    check_large();
    meet_large(&large.asked);
    return is_plain(&large.asked.query) ? LARGE_PLAIN : LARGE_OTHER;
}
