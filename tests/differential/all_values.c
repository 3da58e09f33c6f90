#include "all_values.h"

/* The plot's values: where each of them first stands among the words. */
static size_t places[PLOT_ROOM];
static size_t value_count;

/* These and then the constants that the query names. */
static uint32_t range[PLOT_ROOM];
static size_t range_count;

/* Whether the cell at a place is also the number of a relation that has an earlier row. */
static bool was_relation_number(const struct any_plot *plot, size_t place)
{
    size_t next;
    for (size_t row = 0; (next = row + 1 + arity_of(plot->header, plot->words[row])) <= place; row = next)
        if (plot->words[row] == plot->words[place])
            return true;
    return false;
}

static bool is_value(const struct any_plot *plot, uint32_t cell)
{
    for (size_t i = 0; i < value_count; i++)
        if (plot->words[places[i]] == cell)
            return true;
    return false;
}

static size_t most_in_one_bucket(const struct any_plot *plot)
{
    size_t counts[BUCKETS] = {0};
    size_t most = 0;
    for (size_t i = 0; i < value_count; i++) {
        size_t count = ++counts[bucket_of(plot->words[places[i]])];
        most = count > most ? count : most;
    }
    return most;
}

static void note_all(const struct any_plot *plot)
{
    size_t used = plot->header[HEADER_USED];
    for (size_t i = 0; i < value_count; i++)
        if (was_relation_number(plot, places[i])) {
            note(RELATION_NUMBER_FIRST);
            break;
        }
    if (!is_among(range, range_count, plot->words[0]))
        note(RELATION_NUMBER_ONLY);
    if (used == MOST_WORDS && places[value_count - 1] == used - 1)
        note(LAST_OF_4096_WORDS);
    if (used == MOST_WORDS && value_count >= 2000)
        note(MANY_IN_4096_WORDS);
    if (most_in_one_bucket(plot) >= 200)
        note(MANY_IN_ONE_BUCKET);
}

/* The number of values of the range up to and including a cell, or of all if it is none of them. */
static size_t values_up_to(uint32_t cell)
{
    size_t count = 0;
    while (count < range_count && range[count] != cell)
        count++;
    return count < range_count ? count + 1 : count;
}

static void note_one(const struct any_plot *plot, uint32_t cell)
{
    if (!is_value(plot, cell)) {
        if (is_among(range, range_count, cell))
            note(NAMED_VALUE_FOUND);
        return;
    }
    size_t place = places[values_up_to(cell) - 1];
    if (was_relation_number(plot, place))
        note(RELATION_NUMBER_FOUND);
    if (value_count >= 100 && place == places[value_count - 1])
        note(LAST_VALUE_FOUND);
}

/* What the equalities of constants cost: they are asked if the candidate's cell is not found. */
static size_t cost_of_named(const struct any_query *query, uint32_t cell)
{
    const uint32_t *first = query->words + FIRST_NAMED_NODE * NODE_WORDS;
    if (is_among(range, range_count, cell))
        return 0;
    return first[1] == first[2] ? 1 : 2;
}

static size_t expected_cost(const struct any_query *query, enum value_query kind, uint32_t cell)
{
    switch (kind) {
    case VALUES_UP_TO_EACH:
    case UP_TO_EACH_AND_NAMED:
        return range_count * (range_count + 1) / 2;
    case VALUES_UP_TO_ONE:
        return values_up_to(cell);
    case UP_TO_ONE_AND_NAMED:
        return values_up_to(cell) + cost_of_named(query, cell);
    default:
        return range_count;
    }
}

static void note_values(const struct any_plot *plot, enum value_query kind, uint32_t cell)
{
    if (kind == UP_TO_EACH_AND_NAMED && range_count > value_count + 1)
        note(NAMED_IN_VALUES);
    if (kind == ALL_AND_NAMED && range_count > value_count)
        note(NAMED_BUT_NOT_ASKED);
    if ((kind == VALUES_UP_TO_EACH || kind == UP_TO_EACH_AND_NAMED) && value_count >= 10)
        note(VALUES_IN_VALUES);
    if (kind == VALUES_UP_TO_ONE || kind == UP_TO_ONE_AND_NAMED)
        note_one(plot, cell);
    if ((kind == ALL_VALUES || kind == ALL_AND_NAMED) && value_count > 0)
        note_all(plot);
}

void check_values(const struct any_plot *plot, const struct any_query *query, enum value_query kind,
                  const struct any_cells *candidate, uint32_t cost)
{
    value_count = first_places(plot, places);
    range_count = range_of(plot, query, range);
    note_values(plot, kind, candidate->cells[0]);
    if (cost != expected_cost(query, kind, candidate->cells[0]))
        fail("the cost is not the number of values that the query comes to");
}
