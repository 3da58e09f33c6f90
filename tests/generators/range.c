/* What a query ranges over, read off the words of plot and query. */
#include "generate.h"

/* Which words of a node are terms; none of a node of another kind, or of a relation that no plot can have. */
static void find_terms(const struct any_plot *plot, const uint32_t *node, size_t *start, size_t *end)
{
    *start = *end = 0;
    if (node[0] == EQUAL) {
        *start = 1;
        *end = 3;
    } else if (node[0] == ROW_STANDS && node[1] < MOST_RELATIONS && arity_of(plot->header, node[1]) <= MOST_COLUMNS) {
        *start = 2;
        *end = 2 + arity_of(plot->header, node[1]);
    }
}

size_t constants_of_node(const struct any_plot *plot, const uint32_t *node, uint32_t constants[MOST_COLUMNS])
{
    size_t count = 0;
    size_t start;
    size_t end;
    find_terms(plot, node, &start, &end);
    for (size_t i = start; i < end; i++)
        if (node[i] < CONSTANTS)
            constants[count++] = node[i];
    return count;
}

size_t constants_of_query(const struct any_plot *plot, const struct any_query *query, uint32_t constants[QUERY_ROOM])
{
    size_t count = 0;
    for (size_t at = 0; at + NODE_WORDS <= query->length; at += NODE_WORDS)
        count += constants_of_node(plot, query->words + at, constants + count);
    return count;
}

size_t list_need(const struct any_plot *plot, const struct any_query *query)
{
    uint32_t constants[QUERY_ROOM];
    return count_cells(plot) + constants_of_query(plot, query, constants);
}

bool is_among(const uint32_t *values, size_t count, uint32_t value)
{
    for (size_t i = 0; i < count; i++)
        if (values[i] == value)
            return true;
    return false;
}

size_t add_new(uint32_t *range, size_t count, const uint32_t *constants, size_t constant_count)
{
    for (size_t i = 0; i < constant_count; i++)
        if (!is_among(range, count, constants[i]))
            range[count++] = constants[i];
    return count;
}

size_t values_of_plot(const struct any_plot *plot, uint32_t values[PLOT_ROOM])
{
    static size_t places[PLOT_ROOM];
    size_t count = first_places(plot, places);
    for (size_t i = 0; i < count; i++)
        values[i] = plot->words[places[i]];
    return count;
}

size_t range_of(const struct any_plot *plot, const struct any_query *query, uint32_t range[PLOT_ROOM])
{
    uint32_t constants[QUERY_ROOM];
    size_t constant_count = constants_of_query(plot, query, constants);
    return add_new(range, values_of_plot(plot, range), constants, constant_count);
}
