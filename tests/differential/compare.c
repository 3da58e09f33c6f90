#include "compare.h"
#include "counts.h"
#include "lent.h"
#include "plotask.h"
#include "support/checks.h"

#include <inttypes.h>
#include <stdio.h>
#include <stdlib.h>
#include <string.h>

enum { MOST_LENT = 12, MOST_ARGUMENTS = 3 };

static uint64_t seed_now;
static uint64_t round_now;

/* The call under way: what it lends, and what both sides returned. */
static struct {
    bool under_way;
    enum call call;
    const struct any_plot *plot;
    struct lent lent[MOST_LENT];
    size_t lent_count;
    uint32_t arguments[MOST_ARGUMENTS];
    uint32_t library;
    uint32_t reference;
} now;

void begin_round(uint64_t seed, uint64_t round)
{
    seed_now = seed;
    round_now = round;
}

_Noreturn void fail(const char *what)
{
    printf("seed %" PRIu64 ", round %" PRIu64 ": %s\n", seed_now, round_now, what);
    if (now.under_way) {
        printf("%s with", call_name(now.call));
        for (size_t i = 0; i < MOST_ARGUMENTS; i++)
            printf(" %" PRIu32, now.arguments[i]);
        printf(": library %" PRIu32 ", reference %" PRIu32 "\n", now.library, now.reference);
        for (size_t i = 0; i < now.lent_count; i++)
            print_lent(&now.lent[i]);
    }
    check(false);
    exit(finish_checks());
}

/* A result that a refused call must not write is lent like a slice of one word. */
static const uint32_t unwritten = 0xdeadbeef;

/* Begins a call; the numbers among its arguments that it does not have are 0. */
static void begin(enum call call, uint32_t first, uint32_t second, uint32_t third)
{
    now.under_way = true;
    now.call = call;
    now.lent_count = 0;
    now.arguments[0] = first;
    now.arguments[1] = second;
    now.arguments[2] = third;
}

static struct lent *lend(struct lent lent)
{
    now.lent[now.lent_count] = lent;
    return &now.lent[now.lent_count++];
}

static struct lent *lend_header(const struct any_plot *plot)
{
    return lend(lend_words("header", plot->header, plot->header_length));
}

static struct lent *lend_plot(const struct any_plot *plot)
{
    now.plot = plot;
    return lend(lend_part("plot", plot->words, plot->length, PLOT_ROOM));
}

static struct lent *lend_log(const struct any_log *log)
{
    return lend(lend_part("log", log->words, log->length, LOG_ROOM));
}

static struct lent *lend_log_used(size_t log_used)
{
    return lend(lend_size("log_used", log_used));
}

static struct lent *lend_result(const char *name)
{
    return lend(lend_words(name, &unwritten, 1));
}

/* Notes what is wrong with the counts of a plot that is refused with 41. */
static void note_unsound(void)
{
    enum counts_fault fault = counts_fault(now.plot);
    if (fault < COUNTS_FAULTS)
        tally.unsound[now.call][fault]++;
}

/* Compares what both sides left. The working list may have changed under 46. */
static uint32_t end(uint32_t library, uint32_t reference)
{
    now.library = library;
    now.reference = reference;
    if (library != reference)
        fail("the numbers differ");
    for (size_t i = 0; i < now.lent_count; i++) {
        struct lent *lent = &now.lent[i];
        if (!guards_stand(lent))
            fail("the library wrote outside a slice");
        if (!contents_agree(lent))
            fail("what was lent differs");
        bool free_to_change = library == 46 && strcmp(lent->name, "list") == 0;
        if (library != 0 && !free_to_change && !is_untouched(lent))
            fail("a refused call changed what it was lent");
    }
    tally.calls++;
    tally.numbers[now.call][library]++;
    if (library == 41 && now.call != DECODE)
        note_unsound();
    return library;
}

/* Fails unless the header that an accepted call wrote counts the rows. Both sides could have the same wrong counts. */
static void check_counts(uint32_t number, const struct any_plot *plot)
{
    if (number == 0 && !counts_stand(plot))
        fail("a count is not the number of the relation's rows");
}

static void copy_back(const struct lent *lent, void *to)
{
    memcpy(to, lent->library, lent->count * lent->unit);
}

static void take_all_back(void)
{
    for (size_t i = 0; i < now.lent_count; i++)
        take_back(&now.lent[i]);
    now.under_way = false;
}

/* A slice as the two arguments of a call, pointer and length. */
#define LIBRARY(lent)   (lent)->library, (lent)->count
#define REFERENCE(lent) (lent)->reference, (lent)->count

uint32_t both_decode(struct any_plot *plot, const struct any_card *card, size_t *log_used)
{
    begin(DECODE, 0, 0, 0);
    struct lent *c = lend(lend_bytes("card", card->bytes, card->length));
    struct lent *h = lend_header(plot);
    struct lent *p = lend_plot(plot);
    struct lent *u = lend_log_used(*log_used);
    uint32_t number = end(plotask_decode(LIBRARY(c), LIBRARY(h), LIBRARY(p), u->library),
                          ref_decode(REFERENCE(c), REFERENCE(h), REFERENCE(p), u->reference));
    copy_back(h, plot->header);
    copy_back(p, plot->words);
    copy_back(u, log_used);
    check_counts(number, plot);
    take_all_back();
    return number;
}

uint32_t both_insert(struct any_plot *plot, uint32_t relation, const struct any_cells *cells)
{
    begin(INSERT, relation, 0, 0);
    struct lent *h = lend_header(plot);
    struct lent *p = lend_plot(plot);
    struct lent *c = lend(lend_words("cells", cells->cells, cells->length));
    uint32_t number = end(plotask_insert(LIBRARY(h), LIBRARY(p), relation, LIBRARY(c)),
                          ref_insert(REFERENCE(h), REFERENCE(p), relation, REFERENCE(c)));
    copy_back(h, plot->header);
    copy_back(p, plot->words);
    check_counts(number, plot);
    take_all_back();
    return number;
}

uint32_t both_substitute(struct any_plot *plot, uint32_t null, uint32_t cell, uint32_t *count)
{
    begin(SUBSTITUTE, null, cell, 0);
    struct lent *h = lend_header(plot);
    struct lent *p = lend_plot(plot);
    struct lent *n = lend_result("count");
    uint32_t number = end(plotask_substitute(LIBRARY(h), LIBRARY(p), null, cell, n->library),
                          ref_substitute(REFERENCE(h), REFERENCE(p), null, cell, n->reference));
    copy_back(p, plot->words);
    copy_back(n, count);
    take_all_back();
    return number;
}

uint32_t both_substitute_logged(struct any_plot *plot, struct any_log *log, uint32_t null, uint32_t cell,
                                uint32_t *count)
{
    begin(SUBSTITUTE_LOGGED, null, cell, 0);
    struct lent *h = lend_header(plot);
    struct lent *p = lend_plot(plot);
    struct lent *l = lend_log(log);
    struct lent *u = lend_log_used(log->used);
    struct lent *n = lend_result("count");
    uint32_t number =
        end(plotask_substitute_logged(LIBRARY(h), LIBRARY(p), LIBRARY(l), u->library, null, cell, n->library),
            ref_substitute_logged(REFERENCE(h), REFERENCE(p), REFERENCE(l), u->reference, null, cell, n->reference));
    copy_back(p, plot->words);
    copy_back(l, log->words);
    copy_back(u, &log->used);
    copy_back(n, count);
    take_all_back();
    return number;
}

uint32_t both_undo(struct any_plot *plot, struct any_log *log, uint32_t *count)
{
    begin(UNDO, 0, 0, 0);
    struct lent *h = lend_header(plot);
    struct lent *p = lend_plot(plot);
    struct lent *l = lend_log(log);
    struct lent *u = lend_log_used(log->used);
    struct lent *n = lend_result("count");
    uint32_t number = end(plotask_undo(LIBRARY(h), LIBRARY(p), LIBRARY(l), u->library, n->library),
                          ref_undo(REFERENCE(h), REFERENCE(p), REFERENCE(l), u->reference, n->reference));
    copy_back(p, plot->words);
    copy_back(l, log->words);
    copy_back(u, &log->used);
    copy_back(n, count);
    take_all_back();
    return number;
}

uint32_t both_null_counts(struct any_plot *plot, const uint32_t *output, size_t output_length)
{
    begin(NULL_COUNTS, 0, 0, 0);
    struct lent *h = lend_header(plot);
    struct lent *p = lend_plot(plot);
    struct lent *o = lend(lend_words("counts", output, output_length));
    struct lent *n = lend_result("count");
    uint32_t number = end(plotask_null_counts(LIBRARY(h), LIBRARY(p), LIBRARY(o), n->library),
                          ref_null_counts(REFERENCE(h), REFERENCE(p), REFERENCE(o), n->reference));
    take_all_back();
    return number;
}

uint32_t both_encode(struct any_plot *plot, struct any_card *card, uint32_t *count)
{
    begin(ENCODE, 0, 0, 0);
    struct lent *h = lend_header(plot);
    struct lent *p = lend_plot(plot);
    struct lent *c = lend(lend_bytes("card", card->bytes, card->length));
    struct lent *n = lend_result("count");
    uint32_t number = end(plotask_encode(LIBRARY(h), LIBRARY(p), LIBRARY(c), n->library),
                          ref_encode(REFERENCE(h), REFERENCE(p), REFERENCE(c), n->reference));
    copy_back(c, card->bytes);
    copy_back(n, count);
    take_all_back();
    return number;
}

/* What a way of asking returned and wrote. */
struct answer {
    uint32_t number;
    uint32_t truth;
    uint32_t cost;
};

/* Where, among what is lent, the slices are that both ways of asking take, and these as arguments of a call. */
enum { LENT_HEADER, LENT_PLOT, LENT_QUERY, LENT_CANDIDATE };

#define LIBRARY_QUERY(lent)                                                                   \
    LIBRARY(&(lent)[LENT_HEADER]), LIBRARY(&(lent)[LENT_PLOT]), LIBRARY(&(lent)[LENT_QUERY]), \
        LIBRARY(&(lent)[LENT_CANDIDATE])
#define REFERENCE_QUERY(lent)                                                                       \
    REFERENCE(&(lent)[LENT_HEADER]), REFERENCE(&(lent)[LENT_PLOT]), REFERENCE(&(lent)[LENT_QUERY]), \
        REFERENCE(&(lent)[LENT_CANDIDATE])

/* Begins a query by one way, and returns what is lent so far: these slices. */
static const struct lent *begin_ask(enum call way, const struct any_plot *plot, const struct any_query *query,
                                    const struct any_cells *candidate, uint32_t budget)
{
    begin(way, budget, 0, 0);
    lend_header(plot);
    lend_plot(plot);
    lend(lend_words("query", query->words, query->length));
    lend(lend_words("candidate", candidate->cells, candidate->length));
    return now.lent;
}

static struct answer answer_of(uint32_t number, const struct lent *truth, const struct lent *cost)
{
    struct answer answer = {number, 0, 0};
    copy_back(truth, &answer.truth);
    copy_back(cost, &answer.cost);
    if (number == 0)
        tally.truths[answer.truth]++;
    return answer;
}

/*
 * Fails unless the list that an ask of an undamaged plot left begins with the range, and is as before after it. Both
 * sides could have the same wrong range.
 */
static void check_list(const struct any_plot *plot, const struct any_query *query, const struct lent *list)
{
    static uint32_t range[PLOT_ROOM];
    const uint32_t *left = list->library;
    const uint32_t *before = list->before;
    size_t count = range_of(plot, query, range);
    if (count > list->count)
        fail("the working list has no room for the range");
    if (memcmp(left, range, count * sizeof *range) != 0)
        fail("the working list does not begin with the range");
    if (memcmp(left + count, before + count, (list->count - count) * sizeof *range) != 0)
        fail("a word of the working list behind the range has changed");
}

static struct answer both_ask_listed(const struct any_plot *plot, const struct any_query *query,
                                     const struct any_cells *candidate, size_t list_length, uint32_t budget)
{
    static uint32_t arbitrary[PLOT_ROOM];
    struct random random = {list_length};
    for (size_t i = 0; i < list_length; i++)
        arbitrary[i] = odd_number(&random, (uint32_t)i);
    const struct lent *asked = begin_ask(ASK, plot, query, candidate, budget);
    struct lent *l = lend(lend_words("list", arbitrary, list_length));
    struct lent *t = lend_result("truth");
    struct lent *n = lend_result("cost");
    uint32_t number = end(plotask_ask(LIBRARY_QUERY(asked), LIBRARY(l), budget, t->library, n->library),
                          ref_ask(REFERENCE_QUERY(asked), REFERENCE(l), budget, t->reference, n->reference));
    struct answer answer = answer_of(number, t, n);
    if (number == 0 || number == 46)
        check_list(plot, query, l);
    take_all_back();
    return answer;
}

/* Fails unless the unlisted way answers as the listed one does with a list that is long enough. */
static void compare_ways(const struct answer *listed, const struct answer *unlisted)
{
    if (unlisted->number != listed->number)
        fail("the ways of asking return different numbers");
    if (unlisted->truth != listed->truth || unlisted->cost != listed->cost)
        fail("the ways of asking write different results");
}

static void both_ask_unlisted(const struct any_plot *plot, const struct any_query *query,
                              const struct any_cells *candidate, uint32_t budget, const struct answer *listed)
{
    const struct lent *asked = begin_ask(ASK_UNLISTED, plot, query, candidate, budget);
    struct lent *t = lend_result("truth");
    struct lent *n = lend_result("cost");
    uint32_t number = end(plotask_ask_unlisted(LIBRARY_QUERY(asked), budget, t->library, n->library),
                          ref_ask_unlisted(REFERENCE_QUERY(asked), budget, t->reference, n->reference));
    struct answer unlisted = answer_of(number, t, n);
    compare_ways(listed, &unlisted);
    take_all_back();
}

uint32_t both_ask(struct any_plot *plot, const struct any_query *query, const struct any_cells *candidate,
                  size_t list_length, uint32_t budget, uint32_t *truth, uint32_t *cost)
{
    struct answer listed = both_ask_listed(plot, query, candidate, list_length, budget);
    struct answer expected = listed;
    if (listed.number == 45) {
        expected = both_ask_listed(plot, query, candidate, list_need(plot, query), budget);
        if (expected.number != 0 && expected.number != 46)
            fail("a query that lacked only a longer working list is refused with one");
        note(expected.number == 0 ? ANSWERED_WITHOUT_LIST : SPENT_WITHOUT_LIST);
    }
    both_ask_unlisted(plot, query, candidate, budget, &expected);
    *truth = listed.truth;
    *cost = listed.cost;
    return listed.number;
}
