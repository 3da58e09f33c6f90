/* What a query is answered, beside what two-valued logic says on every completion. */
#ifndef JUDGE_H
#define JUDGE_H

#include "completions.h"

struct judged {
    uint32_t truth;
    uint32_t cost;
    bool plain;
    bool without_not;
    struct completions completions;
    struct answers answers;
    size_t count; /* of completions, and how many of them say yes */
    size_t yeses;
};

/*
 * Asks by both ways and, on every completion, two-valued logic; returns false, with nothing asked, if that would take
 * too long.
 */
bool judge(struct asked *asked, struct judged *judged);

/*
 * A plain query is true exactly if every completion says yes. Any query is true only if every completion says yes, and
 * false only if every one says no. A query without a "not" is not true only if a completion says no, also if it is not
 * plain. Returns what does not hold, or null.
 */
const char *broken_claim(const struct judged *judged);
void print_words(const char *name, const uint32_t *words, size_t count);
void print_asked(const struct asked *asked);
/* Says what is wrong, with all that was asked; then ends the program. */
_Noreturn void fail_judged(const char *what, const struct asked *asked, const struct judged *judged);

/* How many completions say yes, asked in this way. */
size_t yeses_asked(const struct asked *asked, const struct judged *judged, enum completed_how how);

/* Meets the cases that this is. */
void meet_judged(const struct asked *asked, const struct judged *judged);

#endif
