#include "counts.h"

#include <string.h>

bool counts_stand(const struct any_plot *plot)
{
    uint32_t rows[MOST_RELATIONS];
    count_relation_rows(plot, rows);
    return memcmp(plot->header + HEADER_COUNTS, rows, sizeof rows) == 0;
}

/* Whether the reference accepts the plot with these counts. */
static bool is_sound_with(const struct any_plot *plot, const uint32_t rows[MOST_RELATIONS])
{
    uint32_t header[HEADER_ROOM];
    uint32_t nulls[NULLS];
    uint32_t count;
    memcpy(header, plot->header, sizeof header);
    memcpy(header + HEADER_COUNTS, rows, MOST_RELATIONS * sizeof *rows);
    return ref_null_counts(header, plot->header_length, plot->words, plot->length, nulls, NULLS, &count) == 0;
}

enum counts_fault counts_fault(const struct any_plot *plot)
{
    uint32_t rows[MOST_RELATIONS];
    uint32_t over = 0;
    uint32_t wrong = 0;
    size_t wrong_count = 0;
    if (plot->header_length != HEADER_WORDS)
        return COUNTS_OTHERWISE;
    count_relation_rows(plot, rows);
    for (uint32_t relation = 0; relation < MOST_RELATIONS; relation++)
        if (count_of(plot->header, relation) != rows[relation]) {
            over += count_of(plot->header, relation) - rows[relation];
            wrong = relation;
            wrong_count++;
        }
    if (wrong_count == 0)
        return COUNTS_RIGHT;
    if (!is_sound_with(plot, rows))
        return COUNTS_OTHERWISE;
    if (over == 0)
        return COUNTS_COMPENSATE;
    if (wrong_count > 1)
        return COUNTS_OTHERWISE;
    if (wrong >= plot->header[HEADER_RELATIONS])
        return COUNT_OF_NO_RELATION;
    if (over == 1)
        return COUNT_ONE_OVER;
    return count_of(plot->header, wrong) + 1 == rows[wrong] && rows[wrong] > 0 ? COUNT_ONE_SHORT : COUNTS_OTHERWISE;
}
