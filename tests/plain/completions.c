#include "completions.h"

static struct model model;

/* A cell joins the nulls or the constants; false if there is no room for it. */
static bool take_cell(struct completions *completions, uint32_t cell)
{
    if (cell > CONSTANTS) {
        if (completions->null_count == COMPLETED_NULLS)
            return false;
        completions->nulls[completions->null_count++] = cell;
    } else {
        if (completions->in_sight + FRESH_VALUES == MOST_GIVEN)
            return false;
        completions->given[completions->in_sight++] = cell;
    }
    return true;
}

/* Puts the lowest constants that are not in sight after those that are. */
static void add_fresh(struct completions *completions)
{
    completions->given_count = completions->in_sight;
    for (uint32_t fresh = 0; completions->given_count < completions->in_sight + FRESH_VALUES; fresh++)
        if (!is_among(completions->given, completions->in_sight, fresh))
            completions->given[completions->given_count++] = fresh;
}

bool find_completions(const struct asked *asked, struct completions *completions)
{
    static uint32_t cells[PLOT_ROOM];
    size_t count = range_of(&asked->plot, &asked->query, cells);
    count = add_new(cells, count, asked->candidate.cells, asked->candidate.length);
    completions->null_count = completions->in_sight = 0;
    for (size_t i = 0; i < count; i++)
        if (!take_cell(completions, cells[i]))
            return false;
    add_fresh(completions);
    return true;
}

size_t choices(const struct completions *completions, size_t null, size_t given)
{
    return null < completions->null_count ? given : 1;
}

size_t count_completions(const struct completions *completions, size_t given)
{
    return choices(completions, 0, given) * choices(completions, 1, given);
}

size_t count_yeses(const struct completions *completions, const struct answers *answers, size_t given)
{
    size_t yeses = 0;
    for (size_t first = 0; first < choices(completions, 0, given); first++)
        for (size_t second = 0; second < choices(completions, 1, given); second++)
            yeses += answers->yes[first][second];
    return yeses;
}

bool null_decides(const struct completions *completions, const struct answers *answers, size_t null)
{
    for (size_t first = 0; first < choices(completions, 0, completions->given_count); first++)
        for (size_t second = 0; second < choices(completions, 1, completions->given_count); second++)
            if (answers->yes[first][second] != answers->yes[null == 0 ? 0 : first][null == 1 ? 0 : second])
                return true;
    return false;
}

static void open_model(const struct asked *asked)
{
    model_open(&model, asked->plot.header, asked->plot.words, asked->candidate.cells, asked->candidate.length);
}

/* A completed plot has at most as many values as the plot itself. */
uint64_t leaves_of_completions(const struct asked *asked, const struct completions *completions)
{
    open_model(asked);
    uint64_t leaves = two_valued_leaves(&model, asked->query.words, asked->query.length);
    size_t count = count_completions(completions, completions->given_count);
    return leaves > UINT64_MAX / count ? UINT64_MAX : leaves * count;
}

/* Puts constants for the nulls among some words. A relation's number is no null's cell, so that it stays. */
static void complete(const struct completions *completions, const size_t chosen[COMPLETED_NULLS], uint32_t *words,
                     size_t count)
{
    for (size_t i = 0; i < count; i++)
        for (size_t null = 0; null < completions->null_count; null++)
            if (words[i] == completions->nulls[null])
                words[i] = completions->given[chosen[null]];
}

static bool says_yes(const struct asked *asked, const struct completions *completions,
                     const size_t chosen[COMPLETED_NULLS], enum completed_how how)
{
    const struct any_query *query = &asked->query;
    open_model(asked);
    complete(completions, chosen, model.words, model.header[HEADER_USED]);
    if (how != COMPLETED_BUT_CANDIDATE)
        complete(completions, chosen, model.candidate, model.candidate_length);
    return how == COMPLETED_UNNAMED ? two_valued_yes_unnamed(&model, query->words, query->length)
                                    : two_valued_yes(&model, query->words, query->length);
}

void ask_completions(const struct asked *asked, const struct completions *completions, enum completed_how how,
                     struct answers *answers)
{
    for (size_t first = 0; first < choices(completions, 0, completions->given_count); first++)
        for (size_t second = 0; second < choices(completions, 1, completions->given_count); second++) {
            const size_t chosen[COMPLETED_NULLS] = {first, second};
            answers->yes[first][second] = says_yes(asked, completions, chosen, how);
        }
}
