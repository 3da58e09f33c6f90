/*
 * The test of soundness, and substitute, null counts and insert. A loop that writes words keeps the header's words in
 * use in a variable: they would be loaded again after each write, which might be to the header.
 */
#include "baseline.h"

#include <string.h>

static int header_is_sound(const struct plotask_header *header, size_t plot_words)
{
    if (header->used > PLOTASK_WORDS || header->used > plot_words || header->relations - 1 >= PLOTASK_RELATIONS)
        return 0;
    for (uint32_t i = 0; i < PLOTASK_RELATIONS; i++)
        if (i < header->relations ? header->arities[i] - 1 >= PLOTASK_COLUMNS : header->arities[i] != 0)
            return 0;
    return 1;
}

/*
 * Tests a run of rows of one relation, whose number of columns is a constant where it is called, and adds its rows to
 * `found`. Returns the end of the run; null if a row is cut short or has a number that is not a cell. Rows are counted
 * here, since a count in memory would be loaded and stored for each row.
 */
INLINED const uint32_t *test_run(const uint32_t *plot, const uint32_t *end, uint32_t columns, uint32_t *found)
{
    uint32_t relation = *plot, rows = 0;

    do {
        if ((size_t)(end - plot) <= columns)
            return NULL;
        for (uint32_t i = 1; i <= columns; i++)
            if (!is_cell_number(plot[i]))
                return NULL;
        plot += 1 + columns;
        rows++;
    } while (plot < end && *plot == relation);
    *found += rows;
    return plot;
}

static const uint32_t *test_rows(const uint32_t *plot, const uint32_t *end, uint32_t columns, uint32_t *found)
{
    switch (columns) {
    case 1:
        return test_run(plot, end, 1, found);
    case 2:
        return test_run(plot, end, 2, found);
    case 3:
        return test_run(plot, end, 3, found);
    case 4:
        return test_run(plot, end, 4, found);
    case 5:
        return test_run(plot, end, 5, found);
    default:
        return test_run(plot, end, PLOTASK_COLUMNS, found);
    }
}

int is_sound(const struct plotask_header *header, const uint32_t *plot, size_t plot_words)
{
    uint32_t found[PLOTASK_RELATIONS] = {0};

    if (!header_is_sound(header, plot_words))
        return 0;
    for (const uint32_t *end = plot + header->used; plot < end;) {
        uint32_t relation = *plot;
        if (relation >= header->relations)
            return 0;
        plot = test_rows(plot, end, header->arities[relation], &found[relation]);
        if (plot == NULL)
            return 0;
    }
    return memcmp(found, header->counts, sizeof found) == 0;
}

uint32_t replace_null(const struct plotask_header *header, uint32_t *plot, size_t plot_words, uint32_t null,
                      uint32_t cell)
{
    uint32_t old = PLOTASK_MARK(null), used = header->used, count = 0;

    if (!is_sound(header, plot, plot_words) || null - 1 >= PLOTASK_MARKS || !is_cell_number(cell))
        return 0;
    for (uint32_t i = 0; i < used; i++) {
        uint32_t held = plot[i] == old;
        plot[i] = held ? cell : plot[i];
        count += held;
    }
    return count;
}

uint32_t count_nulls(const struct plotask_header *header, const uint32_t *plot, size_t plot_words,
                     uint32_t counts[PLOTASK_MARKS])
{
    uint32_t used = header->used;

    if (!is_sound(header, plot, plot_words))
        return 0;
    memset(counts, 0, PLOTASK_MARKS * sizeof *counts);
    for (uint32_t i = 0; i < used; i++)
        if (plot[i] > PLOTASK_CONSTANTS)
            counts[plot[i] - PLOTASK_FIRST_MARK]++;
    return PLOTASK_MARKS;
}

uint32_t insert_row(struct plotask_header *header, uint32_t *plot, size_t plot_words, uint32_t relation,
                    const uint32_t *cells, size_t count)
{
    if (!is_sound(header, plot, plot_words) || relation >= header->relations || count != header->arities[relation])
        return 0;
    for (size_t i = 0; i < count; i++)
        if (!is_cell_number(cells[i]))
            return 0;
    if (header->used + 1 + count > PLOTASK_WORDS || header->used + 1 + count > plot_words)
        return 0;
    plot[header->used] = relation;
    memcpy(plot + header->used + 1, cells, count * sizeof *cells);
    header->used += 1 + (uint32_t)count;
    header->counts[relation]++;
    return header->used;
}
