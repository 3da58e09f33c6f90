/* The library against the reference, on random input: differential [seed [rounds [first round]]]. */
#include "differential/calls.h"
#include "differential/history.h"
#include "differential/two_runs.h"
#include "support/arguments.h"
#include "support/checks.h"

#include <inttypes.h>
#include <stdio.h>
#include <string.h>

/* Many calls on one plot and log. */
static void run_calls(struct random *random, const struct palette *palette, struct any_plot *plot, struct any_log *log)
{
    for (size_t calls = 15 + below(random, 60); calls > 0; calls--) {
        switch (below(random, 24)) {
        case 0:
        case 1:
            try_decode(random, palette, plot, log);
            break;
        case 2:
        case 3:
        case 4:
        case 5:
            try_insert(random, palette, plot);
            break;
        case 6:
        case 7:
            try_substitute(random, palette, plot);
            break;
        case 8:
            try_null_counts(random, plot);
            break;
        case 9:
            try_encode(random, plot);
            break;
        case 10:
        case 11:
        case 12:
        case 13:
            try_substitute_logged(random, palette, plot, log);
            break;
        case 14:
        case 15:
        case 16:
        case 17:
            try_undo(random, plot, log);
            break;
        default:
            try_ask(random, palette, plot);
        }
    }
}

static void run_round(uint64_t seed, uint64_t round)
{
    static struct any_plot plot;
    static struct any_log log;
    struct random random = random_of_round(seed, round);
    begin_round(seed, round);
    memset(&plot, 0, sizeof plot); /* a round follows from seed and number alone */
    memset(&log, 0, sizeof log);
    struct palette palette = make_palette(&random);
    make_plot(&random, &palette, &plot);
    make_log(&random, &plot, &log);
    run_calls(&random, &palette, &plot, &log);
    for (size_t runs = 1 + below(&random, 3); runs > 0; runs--) {
        make_plot(&random, &palette, &plot);
        try_two_runs(&random, &palette, &plot);
    }
    for (size_t histories = 1 + below(&random, 2); histories > 0; histories--) {
        make_plot(&random, &palette, &plot);
        try_history(&random, &palette, &plot);
    }
}

int main(int count, char **arguments)
{
    uint64_t seed = number_argument(count, arguments, 1, 1);
    uint64_t rounds = number_argument(count, arguments, 2, 6000);
    uint64_t first = number_argument(count, arguments, 3, 0);
    for (uint64_t round = first; round < first + rounds; round++)
        run_round(seed, round);
    check_tally();
    printf("seed %" PRIu64 ", %" PRIu64 " rounds, %" PRIu64 " calls compared\n", seed, rounds, tally.calls);
    return finish_checks();
}
