/*
 * Document 02's "When a true is missed and when not": what is answered on small random input, beside what two-valued
 * logic says on every completion, and on large one, beside what it says on a few: plain [seed [rounds [first round]]].
 * Every hundredth round has a large query besides its small one.
 */
#include "differential/compare.h"
#include "plain/cases.h"
#include "plain/judge.h"
#include "plain/large.h"
#include "plain/small.h"
#include "plain/worked.h"
#include "support/arguments.h"
#include "support/checks.h"

#include <inttypes.h>
#include <stdio.h>
#include <string.h>

enum { ROUNDS_FOR_A_LARGE = 100 };

/* The small queries that were judged, those of them that are plain, their completions, and the queries passed over. */
static uint64_t query_count;
static uint64_t plain_count;
static uint64_t completion_count;
static uint64_t too_large;
/* The large queries, by what came of them. */
static uint64_t large_counts[LARGE_OTHER + 1];

static void run_small(struct random *random)
{
    static struct asked asked;
    static struct judged judged;
    memset(&asked, 0, sizeof asked); /* a round follows from seed and number alone */
    make_small(random, &asked);
    if (!judge(&asked, &judged)) {
        too_large++;
        return;
    }
    const char *broken = broken_claim(&judged);
    if (broken != NULL)
        fail_judged(broken, &asked, &judged);
    meet_judged(&asked, &judged);
    query_count++;
    plain_count += judged.plain;
    completion_count += judged.count;
}

static void run_round(uint64_t seed, uint64_t round)
{
    struct random random = random_of_round(seed, round);
    begin_round(seed, round);
    run_small(&random);
    if (round % ROUNDS_FOR_A_LARGE == 0)
        large_counts[run_large(&random)]++;
}

int main(int count, char **arguments)
{
    uint64_t seed = number_argument(count, arguments, 1, 1);
    uint64_t rounds = number_argument(count, arguments, 2, 200000);
    uint64_t first = number_argument(count, arguments, 3, 0);
    check_worked();
    for (uint64_t round = first; round < first + rounds; round++)
        run_round(seed, round);
    check_cases();
    printf("seed %" PRIu64 ", %" PRIu64 " rounds, %" PRIu64 " queries too large\n", seed, rounds, too_large);
    printf("%" PRIu64 " queries, %" PRIu64 " of them plain, on %" PRIu64 " completions\n", query_count, plain_count,
           completion_count);
    printf("%" PRIu64 " large queries, %" PRIu64 " of them plain, %" PRIu64 " too large\n",
           large_counts[LARGE_PLAIN] + large_counts[LARGE_OTHER], large_counts[LARGE_PLAIN],
           large_counts[LARGE_TOO_LARGE]);
    return finish_checks();
}
