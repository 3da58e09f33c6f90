/*
 * The desk (examples/desk) on random input: desk_random [seed [rounds [first round]]]. In each round random lines are
 * typed at it, many of them damaged; and there is a conversation about a random plot, each answer of which is compared
 * with that of an account kept by the reference.
 */
#include "desk_random/conversation.h"
#include "desk_random/tally.h"
#include "desk_random/watch.h"
#include "support/arguments.h"
#include "support/checks.h"
#include "typing/folder.h"

#include <inttypes.h>
#include <stdio.h>

/* False, after it has printed what is wrong, if a round fails. */
static bool run_round(uint64_t seed, uint64_t round)
{
    struct random random = random_of_round(seed, round);
    if (check(type_random_lines(&random)) && check(hold_conversation(&random)))
        return true;
    printf("seed %" PRIu64 ", round %" PRIu64 "\n", seed, round);
    return false;
}

int main(int count, char **arguments)
{
    uint64_t seed = number_argument(count, arguments, 1, 1);
    uint64_t rounds = number_argument(count, arguments, 2, 600);
    uint64_t first = number_argument(count, arguments, 3, 0);
    uint64_t round = first;
    enter_folder();
    while (round < first + rounds && run_round(seed, round))
        round++;
    leave_folder();
    if (round == first + rounds)
        check_tally();
    printf("seed %" PRIu64 ", %" PRIu64 " rounds\n", seed, round - first);
    return finish_checks();
}
