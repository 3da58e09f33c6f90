#include "judge.h"
#include "cases.h"
#include "differential/compare.h"
#include "small.h"

#include <inttypes.h>
#include <stdio.h>

/*
 * Two-valued logic does not stop early, so it is asked only if it ends soon. Then the budget is never exceeded: a leaf
 * costs 1 and at most the rows of a relation.
 */
enum { MOST_LEAVES = 20000, BUDGET = 1000000 };

void print_words(const char *name, const uint32_t *words, size_t count)
{
    printf("%s:", name);
    for (size_t i = 0; i < count; i++)
        printf(" %" PRIu32, words[i]);
    printf("\n");
}

/* Prints what the nulls are given where a completion says this. */
static void print_completions(const struct judged *judged, bool yes)
{
    const struct completions *completions = &judged->completions;
    print_words("nulls", completions->nulls, completions->null_count);
    for (size_t first = 0; first < choices(completions, 0, completions->given_count); first++)
        for (size_t second = 0; second < choices(completions, 1, completions->given_count); second++) {
            const uint32_t given[COMPLETED_NULLS] = {completions->given[first], completions->given[second]};
            if (judged->answers.yes[first][second] == yes)
                print_words(yes ? "yes with" : "no with", given, completions->null_count);
        }
}

void print_asked(const struct asked *asked)
{
    print_words("header", asked->plot.header, HEADER_WORDS);
    print_words("plot", asked->plot.words, asked->plot.length);
    print_words("candidate", asked->candidate.cells, asked->candidate.length);
    print_words("query", asked->query.words, asked->query.length);
}

void fail_judged(const char *what, const struct asked *asked, const struct judged *judged)
{
    print_asked(asked);
    printf("truth %" PRIu32 ", cost %" PRIu32 "; %zu of %zu completions say yes\n", judged->truth, judged->cost,
           judged->yeses, judged->count);
    print_completions(judged, judged->truth != TRUTH_TRUE);
    fail(what);
}

const char *broken_claim(const struct judged *judged)
{
    if (judged->truth == TRUTH_TRUE && judged->yeses < judged->count)
        return "true, but a completion says no";
    if (judged->truth == TRUTH_FALSE && judged->yeses > 0)
        return "false, but a completion says yes";
    if (judged->plain && judged->truth != TRUTH_TRUE && judged->yeses == judged->count)
        return "plain and not true, but every completion says yes";
    /*
     * Asked for of plain queries alone, but it holds with "every" too: the completion that gives each null a constant
     * of its own, out of sight, maps back onto all of the plot's values. So where "every" is not true for one of them,
     * that completion says no for the value that maps back to it.
     */
    if (judged->without_not && judged->truth != TRUTH_TRUE && judged->yeses == judged->count)
        return "without a not and not true, but every completion says yes";
    return NULL;
}

bool judge(struct asked *asked, struct judged *judged)
{
    struct completions *completions = &judged->completions;
    if (!find_completions(asked, completions))
        fail("more nulls or constants than are completed");
    if (leaves_of_completions(asked, completions) > MOST_LEAVES)
        return false;
    size_t need = list_need(&asked->plot, &asked->query);
    if (both_ask(&asked->plot, &asked->query, &asked->candidate, need, BUDGET, &judged->truth, &judged->cost) != 0)
        fail("a query is refused that keeps every rule");
    judged->plain = is_plain(&asked->query);
    judged->without_not = !has_kind(&asked->query, NOT);
    ask_completions(asked, completions, COMPLETED, &judged->answers);
    judged->count = count_completions(completions, completions->given_count);
    judged->yeses = count_yeses(completions, &judged->answers, completions->given_count);
    return true;
}

size_t yeses_asked(const struct asked *asked, const struct judged *judged, enum completed_how how)
{
    static struct answers answers;
    ask_completions(asked, &judged->completions, how, &answers);
    return count_yeses(&judged->completions, &answers, judged->completions.given_count);
}

/* Whether every completion with the first `given` constants alone says yes, and there is one. */
static bool all_yes_with(const struct judged *judged, size_t given)
{
    size_t count = count_completions(&judged->completions, given);
    return count > 0 && count_yeses(&judged->completions, &judged->answers, given) == count;
}

static void meet_plain(const struct asked *asked, const struct judged *judged)
{
    if (judged->truth == TRUTH_TRUE) {
        meet(PLAIN_TRUE);
        if (yeses_asked(asked, judged, COMPLETED_UNNAMED) < judged->count)
            meet(NAMED_DECIDES);
        if (yeses_asked(asked, judged, COMPLETED_BUT_CANDIDATE) < judged->count)
            meet(CANDIDATE_COMPLETED);
    } else if (judged->truth == TRUTH_FALSE) {
        meet(PLAIN_FALSE);
    } else {
        meet(judged->yeses > 0 ? PLAIN_UNKNOWN : PLAIN_FALSE_MISSED);
        if (all_yes_with(judged, judged->completions.in_sight))
            meet(FRESH_DECIDES);
        if (all_yes_with(judged, judged->completions.in_sight + 1))
            meet(SECOND_FRESH_DECIDES);
    }
}

static void meet_other(const struct asked *asked, const struct judged *judged)
{
    if (judged->truth == TRUTH_TRUE)
        meet(OTHER_TRUE);
    else if (judged->truth == TRUTH_FALSE)
        meet(OTHER_FALSE);
    else if (judged->yeses == judged->count)
        meet(TRUE_MISSED);
    else
        meet(judged->yeses > 0 ? OTHER_UNKNOWN : FALSE_MISSED);
    if (!has_kind(&asked->query, EVERY))
        meet(NOT_ALONE);
    if (!has_kind(&asked->query, NOT))
        meet(EVERY_ALONE);
}

/* Two completions that differ in the value of a null that no row has, and say different things. */
static bool candidate_null_decides(const struct asked *asked, const struct judged *judged)
{
    const struct completions *completions = &judged->completions;
    for (size_t null = 0; null < completions->null_count; null++)
        if (!is_among(asked->plot.words, asked->plot.length, completions->nulls[null]) &&
            null_decides(completions, &judged->answers, null))
            return true;
    return false;
}

void meet_judged(const struct asked *asked, const struct judged *judged)
{
    if (judged->completions.null_count == 0)
        return;
    if (judged->plain)
        meet_plain(asked, judged);
    else
        meet_other(asked, judged);
    if (candidate_null_decides(asked, judged))
        meet(CANDIDATE_NULL_DECIDES);
}
