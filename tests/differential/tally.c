#include "tally.h"
#include "support/checks.h"

#include <inttypes.h>
#include <stdio.h>

struct tally tally;

static const char *const call_names[CALLS] = {"decode",      "insert", "substitute", "substitute_logged", "undo",
                                              "null_counts", "encode", "ask",        "ask_unlisted"};

/* Acceptance and the refusals that each call can return, ended by a second 0. */
static const uint32_t possible[CALLS][CODES] = {
    [DECODE] = {0, 41, 11, 12, 13, 14, 15, 16, 17, 18, 42},
    [INSERT] = {0, 41, 14, 27, 16, 42},
    [SUBSTITUTE] = {0, 41, 29, 16, 43},
    [SUBSTITUTE_LOGGED] = {0, 41, 29, 16, 43, 47},
    [UNDO] = {0, 41, 48, 49},
    [NULL_COUNTS] = {0, 41, 44},
    [ENCODE] = {0, 41, 44},
    [ASK] = {0, 41, 21, 22, 23, 24, 25, 26, 45, 46},
    [ASK_UNLISTED] = {0, 41, 21, 22, 23, 24, 25, 26, 46},
};

static const char *const case_texts[NAMED_CASES] = {
#define CASE(name, text) [name] = text,
    EVERY_CASE(CASE)
#undef CASE
};

const char *call_name(enum call call)
{
    return call_names[call];
}

void note(enum named_case named_case)
{
    tally.cases[named_case]++;
}

static void check_unsound(enum call call)
{
    static const char *const names[COUNTS_FAULTS] = {"right", "one over", "one short", "of no relation",
                                                     "compensating"};
    printf("%-17s 41, counts", call_names[call]);
    for (size_t fault = 0; fault < COUNTS_FAULTS; fault++) {
        printf(" %s:%" PRIu64, names[fault], tally.unsound[call][fault]);
        check(tally.unsound[call][fault] > 0);
    }
    printf("\n");
}

void check_tally(void)
{
    static const char *const truth_names[] = {"false", "unknown", "true"};
    for (size_t call = 0; call < CALLS; call++) {
        printf("%-17s", call_names[call]);
        for (size_t i = 0; i == 0 || possible[call][i] != 0; i++) {
            uint64_t hits = tally.numbers[call][possible[call][i]];
            printf(" %" PRIu32 ":%" PRIu64, possible[call][i], hits);
            check(hits > 0);
        }
        printf("\n");
    }
    for (enum call call = DECODE + 1; call < CALLS; call++)
        check_unsound(call);
    printf("%-17s", "truths");
    for (size_t i = 0; i < 3; i++) {
        printf(" %s:%" PRIu64, truth_names[i], tally.truths[i]);
        check(tally.truths[i] > 0);
    }
    printf("\n");
    for (size_t i = 0; i < NAMED_CASES; i++) {
        printf("%8" PRIu64 "  %s\n", tally.cases[i], case_texts[i]);
        check(tally.cases[i] > 0);
    }
}
