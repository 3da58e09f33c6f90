/* The parts of a query: listing its range, and testing whether a row stands in a relation. */
#include "baseline.h"

#include <string.h>

enum { SLOTS = 8192, STRIDE = 8 };

/* Whether a cell is among the first n of a list. A stride has no early exit, so that its cells are compared at once. */
static int contains(const uint32_t *list, size_t n, uint32_t cell)
{
    size_t i = 0;

    for (; i + STRIDE <= n; i += STRIDE) {
        uint32_t hits = 0;
        for (size_t k = 0; k < STRIDE; k++)
            hits |= list[i + k] == cell;
        if (hits)
            return 1;
    }
    for (; i < n; i++)
        if (list[i] == cell)
            return 1;
    return 0;
}

/* The first of a node's terms, and their number. */
INLINED const uint32_t *terms_of(const struct plotask_header *header, const uint32_t *node, uint32_t *count)
{
    if (node[0] == PLOTASK_STANDS) {
        *count = header->arities[node[1]];
        return node + 2;
    }
    *count = node[0] == PLOTASK_EQUAL ? 2 : 0;
    return node + 1;
}

size_t list_by_scan(const struct plotask_header *header, const uint32_t *plot, const uint32_t *query,
                    size_t query_words, uint32_t *list)
{
    const uint32_t *end = plot + header->used;
    size_t count = 0;

    while (plot < end)
        for (uint32_t left = header->arities[*plot++]; left > 0; left--, plot++)
            if (!contains(list, count, *plot))
                list[count++] = *plot;
    for (size_t at = 0; at < query_words; at += PLOTASK_NODE_WORDS) {
        uint32_t left;
        for (const uint32_t *term = terms_of(header, query + at, &left); left > 0; left--, term++)
            if (*term < PLOTASK_CONSTANTS && !contains(list, count, *term))
                list[count++] = *term;
    }
    return count;
}

/*
 * Appends a value to a list of `count` unless it is there, and returns the new number. A slot holds a value's index in
 * the list, plus 1; 0 is free. At most 3,810 of the 8,192 slots are taken.
 */
INLINED size_t add_by_table(uint16_t slots[SLOTS], uint32_t *list, size_t count, uint32_t value)
{
    uint32_t at = value * 2654435761u >> 19;

    while (slots[at] != 0 && list[slots[at] - 1] != value)
        at = (at + 1) % SLOTS;
    if (slots[at] == 0) {
        list[count++] = value;
        slots[at] = (uint16_t)count;
    }
    return count;
}

size_t list_by_table(const struct plotask_header *header, const uint32_t *plot, const uint32_t *query,
                     size_t query_words, uint32_t *list)
{
    uint16_t slots[SLOTS];
    const uint32_t *end = plot + header->used;
    size_t count = 0;

    memset(slots, 0, sizeof slots);
    while (plot < end)
        for (uint32_t left = header->arities[*plot++]; left > 0; left--, plot++)
            count = add_by_table(slots, list, count, *plot);
    for (size_t at = 0; at < query_words; at += PLOTASK_NODE_WORDS) {
        uint32_t left;
        for (const uint32_t *term = terms_of(header, query + at, &left); left > 0; left--, term++)
            if (*term < PLOTASK_CONSTANTS)
                count = add_by_table(slots, list, count, *term);
    }
    return count;
}

static int are_constants(uint32_t x, uint32_t y)
{
    return x < PLOTASK_CONSTANTS && y < PLOTASK_CONSTANTS;
}

/*
 * Whether two rows unify, of which the first cells differ and are not both constants. The null replaced there is kept
 * apart from the further ones, since there is mostly no other; `from` and `to` hold these in their order.
 */
static int unifies(const uint32_t *a, const uint32_t *b, uint32_t columns)
{
    uint32_t from[PLOTASK_COLUMNS], to[PLOTASK_COLUMNS], count = 0;
    uint32_t first_from = *a < PLOTASK_CONSTANTS ? *b : *a, first_to = *a < PLOTASK_CONSTANTS ? *a : *b;

    for (uint32_t i = 1; i < columns; i++) {
        uint32_t x = a[i] == first_from ? first_to : a[i], y = b[i] == first_from ? first_to : b[i];
        for (uint32_t k = 0; k < count; k++) {
            x = x == from[k] ? to[k] : x;
            y = y == from[k] ? to[k] : y;
        }
        if (x == y)
            continue;
        if (are_constants(x, y))
            return 0;
        from[count] = x < PLOTASK_CONSTANTS ? y : x;
        to[count++] = x < PLOTASK_CONSTANTS ? x : y;
    }
    return 1;
}

/*
 * Where a run of rows of one relation ends, if rows of others follow. A step looked up for each row would make its
 * address wait for two loads.
 */
INLINED const uint32_t *end_of_run(const struct plotask_header *header, const uint32_t *plot)
{
    uint32_t relation = *plot;
    size_t step = 1 + header->arities[relation];

    do
        plot += step;
    while (*plot == relation);
    return plot;
}

/*
 * row_stands for a number of columns that is a constant where it is called. A row is passed over if its first cell is
 * not the asked one and below `limit`: all constants if the asked cell is one, and every cell as soon as a row unifies,
 * since then only an identical row matters. `end` is where the relation's last row ends if its rows that are left
 * follow each other, so rows of other relations move it, and no row after that last one is passed.
 */
INLINED uint32_t stands_in(const struct plotask_header *header, const uint32_t *plot, uint32_t relation,
                           const uint32_t *row, uint32_t columns, uint64_t *cost)
{
    const uint32_t *end = plot + header->counts[relation] * (1 + columns);
    uint32_t first = row[0], limit = first < PLOTASK_CONSTANTS ? PLOTASK_CONSTANTS : 0;
    uint32_t truth = PLOTASK_FALSE;

    *cost += 1 + header->counts[relation];
    while (plot < end) {
        while (*plot != relation) {
            const uint32_t *next = end_of_run(header, plot);
            end += next - plot;
            plot = next;
        }
        do {
            if (plot[1] == first || plot[1] >= limit) {
                uint32_t i = plot[1] == first;
                if (i > 0)
                    while (i < columns && plot[1 + i] == row[i])
                        i++;
                if (i == columns) {
                    *cost -= (size_t)(end - plot) / (1 + columns) - 1; /* the rows after this one */
                    return PLOTASK_TRUE;
                }
                if (truth == PLOTASK_FALSE && !are_constants(plot[1 + i], row[i]) &&
                    unifies(plot + 1 + i, row + i, columns - i)) {
                    truth = PLOTASK_UNKNOWN;
                    limit = UINT32_MAX;
                }
            }
            plot += 1 + columns;
        } while (plot < end && *plot == relation);
    }
    return truth;
}

uint32_t row_stands(const struct plotask_header *header, const uint32_t *plot, uint32_t relation, const uint32_t *row,
                    uint64_t *cost)
{
    switch (header->arities[relation]) {
    case 1:
        return stands_in(header, plot, relation, row, 1, cost);
    case 2:
        return stands_in(header, plot, relation, row, 2, cost);
    case 3:
        return stands_in(header, plot, relation, row, 3, cost);
    case 4:
        return stands_in(header, plot, relation, row, 4, cost);
    case 5:
        return stands_in(header, plot, relation, row, 5, cost);
    default:
        return stands_in(header, plot, relation, row, PLOTASK_COLUMNS, cost);
    }
}
