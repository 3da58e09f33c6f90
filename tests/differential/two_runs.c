#include "two_runs.h"
#include "one_row.h"

#include <inttypes.h>
#include <stdio.h>
#include <string.h>

/* Two-valued logic does not stop early, so it is asked only if it ends soon. */
enum { MOST_LEAVES = 4000 };

struct run {
    uint32_t budget;
    size_t list_length;
    uint32_t truth;
    uint32_t cost;
};

/* Run A's plot, candidate and query, and the model of the substitutions since. */
static struct any_plot before;
static struct any_cells candidate;
static struct any_query query;
static struct any_log fill_log;
static struct model model;

static void print_words(const char *name, const uint32_t *words, size_t count)
{
    printf("%s:", name);
    for (size_t i = 0; i < count; i++)
        printf(" %" PRIu32, words[i]);
    printf("\n");
}

static _Noreturn void fail_runs(const char *what)
{
    print_words("A's header", before.header, HEADER_WORDS);
    print_words("A's plot", before.words, before.length);
    print_words("A's candidate", candidate.cells, candidate.length);
    print_words("query", query.words, query.length);
    print_words("the model's rows", model.words, model.header[HEADER_USED]);
    print_words("the model's candidate", model.candidate, model.candidate_length);
    fail(what);
}

static bool candidate_has(uint32_t null)
{
    for (size_t i = 0; i < model.candidate_length; i++)
        if (model.candidate[i] == CONSTANTS + null)
            return true;
    return false;
}

/* The log of the next substitution: as the last one left it or fresh, and with much room, little or none. */
static void any_log_size(struct random *random)
{
    if (one_in(random, 10) || fill_log.used + MOST_WORDS > LOG_ROOM)
        fill_log.used = 0;
    fill_log.length = fill_log.used + below(random, one_in(random, 3) ? 6 : MOST_WORDS);
    if (one_in(random, 20))
        fill_log.used = fill_log.length + 1 + below(random, 3);
}

static uint32_t substitute_logged(struct random *random, struct any_plot *plot, uint32_t null, uint32_t cell,
                                  uint32_t *count, struct log_size *log)
{
    any_log_size(random);
    log->length = fill_log.length;
    log->used = fill_log.used;
    uint32_t number = both_substitute_logged(plot, &fill_log, null, cell, count);
    if (number == 0 && fill_log.used != log->used + 2 + *count)
        fail_runs("an entry has not two words and one for each cell");
    if (number == 0)
        note(LOGGED_BETWEEN_RUNS);
    if (number == 47)
        note(LOG_FULL_BETWEEN_RUNS);
    return number;
}

static void substitute_both(struct random *random, const struct palette *palette, struct any_plot *plot, uint32_t null,
                            uint32_t cell)
{
    uint32_t count = 0;
    uint32_t model_count = 0;
    struct log_size log;
    bool in_candidate = candidate_has(null);
    bool logged = one_in(random, 2);
    try_call_between(random, palette, plot);
    uint32_t number =
        logged ? substitute_logged(random, plot, null, cell, &count, &log) : both_substitute(plot, null, cell, &count);
    if (number != model_substitute(&model, logged ? &log : NULL, null, cell, &model_count))
        fail_runs("a substitution and the model return different numbers");
    if (number == 0 && count != model_count)
        fail_runs("a substitution and the model count different cells");
    if (number != 0)
        note(REFUSED_BETWEEN_RUNS);
    if (number == 0 && in_candidate && cell != CONSTANTS + null)
        note(CANDIDATE_CHANGED);
    if (number == 43 && in_candidate)
        note(CANDIDATE_NULL_STAYS);
}

static void some_substitutions(struct random *random, const struct palette *palette, struct any_plot *plot)
{
    for (size_t left = below(random, 8); left > 0; left--) {
        uint32_t null = null_to_replace(random, palette, plot);
        if (model.candidate_length > 0 && one_in(random, 5) && model.candidate[0] > CONSTANTS)
            null = model.candidate[0] - CONSTANTS;
        substitute_both(random, palette, plot, null, any_replacement(random, palette, null));
    }
}

/* Replaces every null of the plot by a constant. */
static void replace_all(struct random *random, const struct palette *palette, struct any_plot *plot)
{
    bool held[NULLS + 1] = {false};
    for (size_t i = 0; i < plot->header[HEADER_USED]; i++)
        if (plot->words[i] > CONSTANTS)
            held[plot->words[i] - CONSTANTS] = true;
    for (uint32_t i = 0, null = 1 + below(random, NULLS); i < NULLS; i++, null = null % NULLS + 1)
        if (held[null])
            substitute_both(random, palette, plot, null, any_constant(random, palette));
}

/* The words in use are the model's rows; all other words and the header are as A left them. */
static void check_plot(const struct any_plot *after)
{
    size_t used = before.header[HEADER_USED];
    if (memcmp(before.header, after->header, HEADER_WORDS * sizeof *after->header) != 0)
        fail_runs("substitutions changed the header");
    if (memcmp(model.words, after->words, used * sizeof *after->words) != 0)
        fail_runs("the plot after the substitutions is not the model's");
    if (memcmp(before.words + used, after->words + used, (before.length - used) * sizeof *after->words) != 0)
        fail_runs("substitutions changed words that are not in use");
}

static void check_runs(const struct run *a, const struct run *b)
{
    if (a->truth != TRUTH_UNKNOWN && b->truth != a->truth)
        fail_runs("substitutions unsettled a verdict");
    if (b->cost > a->cost)
        fail_runs("B's cost is higher than A's");
    if (b->cost < a->cost)
        note(LOWER_COST);
    if (b->cost < a->cost && asks_one_row(&query))
        note(ROW_LOWER_COST);
    if (b->truth == TRUTH_UNKNOWN)
        note(STAYED_UNKNOWN);
    else if (b->truth == TRUTH_TRUE)
        note(a->truth == TRUTH_TRUE ? KEPT_TRUE : SETTLED_TRUE);
    else
        note(a->truth == TRUTH_FALSE ? KEPT_FALSE : SETTLED_FALSE);
}

static void check_two_valued(const struct run *b)
{
    if (model_holds_a_null(&model))
        return;
    if (b->truth == TRUTH_UNKNOWN)
        fail_runs("no null is left, and the verdict is unknown");
    if (two_valued_leaves(&model, query.words, query.length) > MOST_LEAVES)
        return;
    bool yes = two_valued_yes(&model, query.words, query.length);
    if (yes != (b->truth == TRUTH_TRUE))
        fail_runs("the verdict is not that of two-valued logic");
    note(yes ? TWO_VALUED_YES : TWO_VALUED_NO);
}

void try_two_runs(struct random *random, const struct palette *palette, struct any_plot *plot)
{
    struct any_cells candidate_left;
    struct run a;
    make_candidate(random, palette, &candidate);
    make_any_query(random, palette, plot, &candidate, &query);
    if (foresee(plot, &query, &candidate, 3000, &a.cost) != 0)
        return;
    a.budget = a.cost + (one_in(random, 3) ? below(random, 1000) : 0);
    a.list_length = list_need(plot, &query) + below(random, 3);
    if (both_ask(plot, &query, &candidate, a.list_length, a.budget, &a.truth, &a.cost) != 0)
        fail("a query is refused that the reference accepted");
    before = *plot;
    make_fresh_log(random, &fill_log, LOG_ROOM);
    model_open(&model, plot->header, plot->words, candidate.cells, candidate.length);
    some_substitutions(random, palette, plot);
    if (one_in(random, 2))
        replace_all(random, palette, plot);
    check_plot(plot);
    candidate_left.length = model.candidate_length;
    memcpy(candidate_left.cells, model.candidate, sizeof model.candidate);
    struct run b = {a.budget + below(random, 2), a.list_length + below(random, 2), 0, 0};
    if (both_ask(plot, &query, &candidate_left, b.list_length, b.budget, &b.truth, &b.cost) != 0)
        fail_runs("B is refused");
    check_runs(&a, &b);
    check_two_valued(&b);
}
