/* A substitution that is logged, and its undo. */
#include "plot.h"

static struct plot plot;
/* Whether the word at an index of the plot is a cell, and so may be a place in the log. */
static bool is_place[MOST_WORDS];

/* Takes a lent plot apart and finds the places of its cells: returns 0, or 41. */
static uint32_t find_places(const uint32_t *header, size_t header_length, const uint32_t *words, size_t length)
{
    size_t at = 0;
    if (plot_take_apart(&plot, header, header_length, words, length) != 0)
        return 41;
    for (size_t i = 0; i < plot.row_count; i++) {
        is_place[at++] = false;
        for (uint32_t column = 0; column < plot.arities[plot.rows[i].relation]; column++)
            is_place[at++] = true;
    }
    while (at < MOST_WORDS)
        is_place[at++] = false;
    return 0;
}

uint32_t ref_substitute_logged(const uint32_t *header, size_t header_length, uint32_t *words, size_t length,
                               uint32_t *log, size_t log_length, size_t *log_used, uint32_t null, uint32_t cell,
                               uint32_t *count)
{
    uint32_t entry[MOST_WORDS + 2];
    uint32_t held = 0;
    if (find_places(header, header_length, words, length) != 0)
        return 41;
    if (null < 1 || null > NULLS)
        return 29;
    if (!is_cell(cell))
        return 16;
    for (uint32_t place = 0; place < MOST_WORDS; place++)
        if (is_place[place] && null_of(words[place]) == null)
            entry[held++] = place;
    if (held == 0)
        return 43;
    entry[held] = null;
    entry[held + 1] = held;
    if (*log_used > log_length || log_length - *log_used < held + 2)
        return 47;
    for (uint32_t i = 0; i < held; i++)
        words[entry[i]] = cell;
    for (uint32_t i = 0; i < held + 2; i++)
        log[(*log_used)++] = entry[i];
    *count = held;
    return 0;
}

uint32_t ref_undo(const uint32_t *header, size_t header_length, uint32_t *words, size_t length, const uint32_t *log,
                  size_t log_length, size_t *log_used, uint32_t *count)
{
    size_t left = *log_used; /* words in use before those that have been read, from the last one back */
    if (find_places(header, header_length, words, length) != 0)
        return 41;
    if (left == 0)
        return 48;
    if (left > log_length)
        return 49;
    uint32_t held = log[--left];
    if (left == 0)
        return 49;
    uint32_t null = log[--left];
    if (null < 1 || null > NULLS || left < held)
        return 49;
    left -= held;
    for (uint32_t i = 0; i < held; i++)
        if (log[left + i] >= MOST_WORDS || !is_place[log[left + i]])
            return 49;
    for (uint32_t i = 0; i < held; i++)
        words[log[left + i]] = CONSTANTS + null;
    *log_used = left;
    *count = held;
    return 0;
}
