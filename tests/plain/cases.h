/* The cases that a run has to meet, since one that was never met has not been tested. */
#ifndef CASES_H
#define CASES_H

#include <stdint.h>

/*
 * Each with what the table prints for it. All of them are met only where plot or candidate has a null. A number of
 * nulls is that of the plot's; in the cases without one, there are at most 2 in plot and candidate together.
 */
#define EVERY_PLAIN_CASE(CASE)                                                                                    \
    CASE(PLAIN_TRUE, "plain, true")                                                                               \
    CASE(PLAIN_FALSE, "plain, false")                                                                             \
    CASE(PLAIN_UNKNOWN, "plain, unknown: a completion says yes, and one says no")                                 \
    CASE(PLAIN_FALSE_MISSED, "plain, unknown: every completion says no")                                          \
    CASE(OTHER_TRUE, "not plain, true")                                                                           \
    CASE(OTHER_FALSE, "not plain, false")                                                                         \
    CASE(OTHER_UNKNOWN, "not plain, unknown: a completion says yes, and one says no")                             \
    CASE(TRUE_MISSED, "not plain, unknown: every completion says yes")                                            \
    CASE(FALSE_MISSED, "not plain, unknown: every completion says no")                                            \
    CASE(NOT_ALONE, "not plain for a not alone")                                                                  \
    CASE(EVERY_ALONE, "not plain for an every alone")                                                             \
    CASE(NAMED_DECIDES, "plain, true: a completion says no if the query's constants are not in range")            \
    CASE(FRESH_DECIDES, "plain, unknown: every completion with constants in sight says yes")                      \
    CASE(SECOND_FRESH_DECIDES, "plain, unknown: every completion with these and one other says yes")              \
    CASE(CANDIDATE_COMPLETED, "plain, true: a completion says no if the candidate is left as it is")              \
    CASE(CANDIDATE_NULL_DECIDES, "completions that differ in a null of the candidate alone say different things") \
    CASE(LARGE_PLAIN_TRUE, "3 to 200 nulls: plain, true")                                                         \
    CASE(LARGE_PLAIN_FALSE, "3 to 200 nulls: plain, false")                                                       \
    CASE(LARGE_PLAIN_UNKNOWN, "3 to 200 nulls: plain, unknown")                                                   \
    CASE(LARGE_OTHER_TRUE, "3 to 200 nulls: not plain, true")                                                     \
    CASE(LARGE_OTHER_FALSE, "3 to 200 nulls: not plain, false")                                                   \
    CASE(LARGE_OTHER_UNKNOWN, "3 to 200 nulls: not plain, unknown")                                               \
    CASE(LARGE_FRESH_DECIDES,                                                                                     \
         "3 to 200 nulls: plain, unknown: the fresh completion says no, and one at random says yes")              \
    CASE(LARGE_ALL_YES, "3 to 200 nulls: not plain, unknown: the fresh completion and those at random say yes")   \
    CASE(LARGE_CANDIDATE_COMPLETED,                                                                               \
         "3 to 200 nulls: plain, true: the fresh completion says no if the candidate is left as it is")           \
    CASE(LARGE_CANDIDATE_NULL, "3 to 200 nulls: the candidate has another one")                                   \
    CASE(LARGE_ALL_NULLS, "200 nulls")                                                                            \
    CASE(LARGE_FULL, "3 to 200 nulls: over 4,000 words are in use")

enum plain_case {
#define CASE(name, text) name,
    EVERY_PLAIN_CASE(CASE)
#undef CASE
        PLAIN_CASES
};

void meet(enum plain_case met);
/* Prints the table, and checks that every case was met. */
void check_cases(void);

#endif
