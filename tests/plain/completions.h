/*
 * Every completion of a plot and candidate: a constant for each of their nulls, the same wherever the null stands.
 * Two-valued logic only compares constants, so those that are in sight nowhere, in plot, candidate or query, can be put
 * for one another. Those in sight and as many others as there are nulls therefore do for all 1,000,000.
 */
#ifndef COMPLETIONS_H
#define COMPLETIONS_H

#include "generators/generate.h"

enum {
    COMPLETED_NULLS = 2,            /* at most, in plot and candidate together */
    FRESH_VALUES = COMPLETED_NULLS, /* constants that are not in sight */
    MOST_GIVEN = 48                 /* constants for a null: more than small plots and queries have */
};

/* A query, and what it is asked of. */
struct asked {
    struct any_plot plot;
    struct any_query query;
    struct any_cells candidate;
};

struct completions {
    uint32_t nulls[COMPLETED_NULLS]; /* as cells */
    size_t null_count;
    uint32_t given[MOST_GIVEN]; /* the constants in sight, and then the fresh ones */
    size_t in_sight;
    size_t given_count;
};

/* Finds the nulls and what they may be given; false if there are too many of either. */
bool find_completions(const struct asked *asked, struct completions *completions);

/* The number of constants for a null if it may be given the first `given` alone; 1 if there is no such null. */
size_t choices(const struct completions *completions, size_t null, size_t given);

/* How two-valued logic is asked: of the completed plot and candidate, or in a way that is not meant. */
enum completed_how {
    COMPLETED,
    COMPLETED_UNNAMED,      /* over the completed plot's values alone */
    COMPLETED_BUT_CANDIDATE /* the candidate is left as it is */
};

/* Whether a completion says yes, by the indices of the constants that each null is given; for no null, 0. */
struct answers {
    bool yes[MOST_GIVEN][MOST_GIVEN];
};

/* At least as many leaves as two-valued logic visits on all completions (UINT64_MAX if they are too many to count). */
uint64_t leaves_of_completions(const struct asked *asked, const struct completions *completions);
void ask_completions(const struct asked *asked, const struct completions *completions, enum completed_how how,
                     struct answers *answers);

/* How many completions there are with the first `given` constants alone, and how many of them say yes. */
size_t count_completions(const struct completions *completions, size_t given);
size_t count_yeses(const struct completions *completions, const struct answers *answers, size_t given);

/* Whether two completions that differ in this null alone say different things. */
bool null_decides(const struct completions *completions, const struct answers *answers, size_t null);

#endif
