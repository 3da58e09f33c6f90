#include "named.h"

#include <string.h>

/* The highest cost for which a query is asked again. */
enum { MOST_COST = 3000 };

/* The plot's values, and after them the constants that only the query has. */
static uint32_t range[PLOT_ROOM];
static size_t value_count;
static size_t range_count;

static uint32_t constants[QUERY_ROOM];
static size_t constant_count;

static void find_range(const struct any_plot *plot, const struct any_query *query)
{
    constant_count = constants_of_query(plot, query, constants);
    value_count = values_of_plot(plot, range);
    range_count = add_new(range, value_count, constants, constant_count);
}

/* The constants below a node in the order of the tree: the left child's before the right one's. */
static size_t constants_by_tree(const struct any_plot *plot, const struct any_query *query, uint32_t node, uint32_t *to)
{
    const uint32_t *words = query->words + node * NODE_WORDS;
    size_t count;
    switch (words[0]) {
    case ROW_STANDS:
    case EQUAL:
        return constants_of_node(plot, words, to);
    case NOT:
        return constants_by_tree(plot, query, words[1], to);
    case AND:
    case OR:
        count = constants_by_tree(plot, query, words[1], to);
        return count + constants_by_tree(plot, query, words[2], to + count);
    default:
        return constants_by_tree(plot, query, words[2], to);
    }
}

/* Whether the tree's order would put the constants that only the query has in another order. */
static bool tree_order_differs(const struct any_plot *plot, const struct any_query *query)
{
    static uint32_t other[PLOT_ROOM];
    uint32_t by_tree[QUERY_ROOM];
    constants_by_tree(plot, query, 0, by_tree);
    memcpy(other, range, value_count * sizeof *range);
    add_new(other, value_count, by_tree, constant_count);
    return memcmp(other, range, range_count * sizeof *range) != 0;
}

static bool only_query_has(uint32_t number)
{
    return is_among(range + value_count, range_count - value_count, number);
}

/* A number that is no term: whether it equals one that only the query has, or is no value at all. */
static void note_number(uint32_t number, enum named_case as_term, enum named_case as_none)
{
    if (only_query_has(number))
        note(as_term);
    if (!is_among(range, range_count, number))
        note(as_none);
}

static void note_numbers(const struct any_query *query)
{
    for (size_t at = 0; at < query->length; at += NODE_WORDS) {
        const uint32_t *words = query->words + at;
        bool quantifier = words[0] == SOME || words[0] == EVERY;
        if (words[0] == ROW_STANDS)
            note_number(words[1], TERM_IS_RELATION, RELATION_IS_NONE);
        if (quantifier)
            note_number(words[1], TERM_IS_VARIABLE, VARIABLE_IS_NONE);
        if (words[0] == AND || words[0] == OR || quantifier)
            note_number(words[2], TERM_IS_CHILD, CHILD_IS_NONE);
    }
}

static void note_constants(void)
{
    for (size_t i = 0; i < constant_count; i++) {
        note(only_query_has(constants[i]) ? TERM_IN_QUERY_ALONE : TERM_IN_PLOT);
        if (is_among(constants, i, constants[i]))
            note(TERM_TWICE);
    }
    if (only_query_has(0))
        note(TERM_0);
    if (only_query_has(CONSTANTS - 1))
        note(TERM_999999);
}

void note_named(const struct any_plot *plot, const struct any_query *query, uint32_t number)
{
    find_range(plot, query);
    if (range_count > value_count)
        note(number == 0 ? TERMS_LISTED : TERMS_LISTED_UNDER_46);
    if (tree_order_differs(plot, query))
        note(number == 0 ? NODES_OUT_OF_ORDER : NODES_OUT_OF_ORDER_UNDER_46);
    note_constants();
    note_numbers(query);
}

/* The variable of a cell that the candidate is to have for a constant: one that no quantifier binds; or VARIABLES. */
static uint32_t variable_for(uint32_t constant, const struct any_query *query, const struct any_cells *candidate,
                             const bool taken[MOST_COLUMNS])
{
    bool bound[VARIABLES] = {false};
    for (size_t at = 0; at < query->length; at += NODE_WORDS)
        if (query->words[at] == SOME || query->words[at] == EVERY)
            bound[query->words[at + 1]] = true;
    for (uint32_t variable = 0; variable < MOST_COLUMNS; variable++)
        if (!bound[variable] && (!taken[variable] || candidate->cells[variable] == constant))
            return variable;
    return VARIABLES;
}

/* Puts cells of the candidate for a query's constants; returns false if there are too few. */
static bool unname(const struct any_plot *plot, struct any_query *query, struct any_cells *candidate)
{
    bool taken[MOST_COLUMNS] = {false};
    memset(taken, true, candidate->length);
    memset(candidate->cells + candidate->length, 0, (CELLS_ROOM - candidate->length) * sizeof *candidate->cells);
    candidate->length = MOST_COLUMNS;
    for (size_t at = 0; at < query->length; at += NODE_WORDS) {
        uint32_t *words = query->words + at;
        uint32_t of_node[MOST_COLUMNS];
        size_t left = constants_of_node(plot, words, of_node);
        for (size_t i = words[0] == EQUAL ? 1 : 2; left > 0; i++) {
            if (words[i] >= CONSTANTS)
                continue;
            uint32_t variable = variable_for(words[i], query, candidate, taken);
            if (variable == VARIABLES)
                return false;
            taken[variable] = true;
            candidate->cells[variable] = words[i];
            words[i] = FIRST_VARIABLE + variable;
            left--;
        }
    }
    return true;
}

/* Asks with the constants as cells of the candidate; returns false if these are too few, or the cost is too high. */
static bool answer_unnamed(const struct any_plot *plot, const struct any_query *query,
                           const struct any_cells *candidate, struct outcome *outcome)
{
    static struct any_query other;
    static uint32_t list[PLOT_ROOM];
    struct any_cells cells = *candidate;
    other = *query;
    if (!unname(plot, &other, &cells))
        return false;
    outcome->number =
        ref_ask(plot->header, plot->header_length, plot->words, plot->length, other.words, other.length, cells.cells,
                cells.length, list, PLOT_ROOM, outcome->budget, &outcome->truth, &outcome->cost);
    return outcome->number == 0;
}

void ask_unnamed(const struct any_plot *plot, const struct any_query *query, const struct any_cells *candidate,
                 const struct outcome *named)
{
    struct outcome unnamed = {.budget = named->number == 46 ? named->budget : MOST_COST};
    find_range(plot, query);
    if (constant_count == 0 || unnamed.budget > MOST_COST || !answer_unnamed(plot, query, candidate, &unnamed))
        return;
    bool same = named->number == 0 && named->truth == unnamed.truth && named->cost == unnamed.cost;
    if (range_count == value_count && !same)
        fail("constants that the plot has change what is answered");
    if (named->number == 46) {
        note(TERM_SPENDS_BUDGET);
        return;
    }
    if (named->truth != unnamed.truth)
        note(TERM_CHANGES_TRUTH);
    if (named->cost > unnamed.cost)
        note(TERM_RAISES_COST);
    if (named->cost < unnamed.cost)
        note(TERM_LOWERS_COST);
}
