#include "query.h"

#include <string.h>

static bool is_variable(uint32_t term)
{
    return term >= FIRST_VARIABLE && term < FIRST_VARIABLE + VARIABLES;
}

static bool is_bound(uint32_t variable, const struct node *leaf, size_t candidate_length)
{
    for (const struct node *above = leaf->parent; above != NULL; above = above->parent)
        if ((above->kind == SOME || above->kind == EVERY) && above->variable == variable)
            return true;
    return variable < candidate_length;
}

/* The number of a node's words that have a meaning, the kind included. */
static size_t named_words(const struct node *node, const struct plot *plot)
{
    switch (node->kind) {
    case ROW_STANDS:
        return 2 + plot->arities[node->relation];
    case NOT:
        return 2;
    default:
        return 3;
    }
}

/* Takes node `number` for a child: returns 0, or 23. */
static uint32_t name_child(struct query *query, struct node *parent, uint32_t number, const struct node **child)
{
    if (number <= (size_t)(parent - query->nodes) || number >= query->node_count)
        return 23;
    if (query->nodes[number].parent != NULL)
        return 23;
    query->nodes[number].parent = parent;
    *child = &query->nodes[number];
    return 0;
}

static uint32_t take_terms(struct node *node, const uint32_t *terms, size_t count, size_t candidate_length)
{
    node->term_count = count;
    for (size_t i = 0; i < count; i++) {
        if (!is_constant(terms[i]) && !is_variable(terms[i]))
            return 22;
        if (is_variable(terms[i]) && !is_bound(terms[i] - FIRST_VARIABLE, node, candidate_length))
            return 24;
        node->terms[i] = terms[i];
    }
    return 0;
}

static uint32_t take_node(struct query *query, size_t number, const struct plot *plot, const uint32_t *words,
                          size_t candidate_length)
{
    struct node *node = &query->nodes[number];
    if (number > 0 && node->parent == NULL)
        return 23;
    if (words[0] < 1 || words[0] > 7)
        return 22;
    node->kind = (enum kind)words[0];
    if (node->kind == ROW_STANDS) {
        if (words[1] >= plot->relations)
            return 25;
        node->relation = words[1];
    }
    for (size_t i = named_words(node, plot); i < NODE_WORDS; i++)
        if (words[i] != 0)
            return 22;
    switch (node->kind) {
    case ROW_STANDS:
        return take_terms(node, words + 2, plot->arities[node->relation], candidate_length);
    case EQUAL:
        return take_terms(node, words + 1, 2, candidate_length);
    case NOT:
        return name_child(query, node, words[1], &node->left);
    case AND:
    case OR:
        if (name_child(query, node, words[1], &node->left) != 0)
            return 23;
        return name_child(query, node, words[2], &node->right);
    case SOME:
    case EVERY:
        if (words[1] >= VARIABLES)
            return 24;
        node->variable = words[1];
        return name_child(query, node, words[2], &node->left);
    }
    return 0;
}

uint32_t query_take_apart(struct query *query, const struct plot *plot, const uint32_t *words, size_t length,
                          const uint32_t *candidate, size_t candidate_length)
{
    if (length < NODE_WORDS || length > MOST_NODES * NODE_WORDS || length % NODE_WORDS != 0)
        return 21;
    if (candidate_length > MOST_COLUMNS)
        return 26;
    for (size_t i = 0; i < candidate_length; i++)
        if (!is_cell(candidate[i]))
            return 26;
    memset(query, 0, sizeof *query);
    query->node_count = length / NODE_WORDS;
    for (size_t number = 0; number < query->node_count; number++) {
        uint32_t refusal = take_node(query, number, plot, words + number * NODE_WORDS, candidate_length);
        if (refusal != 0)
            return refusal;
    }
    return 0;
}

size_t query_constants(const struct query *query)
{
    size_t count = 0;
    for (size_t number = 0; number < query->node_count; number++)
        for (size_t i = 0; i < query->nodes[number].term_count; i++)
            count += is_constant(query->nodes[number].terms[i]);
    return count;
}

size_t query_range(const struct query *query, const struct plot *plot, uint32_t *list)
{
    size_t count = plot_values(plot, list);
    for (size_t number = 0; number < query->node_count; number++) {
        const struct node *node = &query->nodes[number];
        for (size_t i = 0; i < node->term_count; i++)
            if (is_constant(node->terms[i]))
                count = list_once(list, count, node->terms[i]);
    }
    return count;
}

uint32_t term_cell(uint32_t term, const struct binding *bindings, const uint32_t *candidate)
{
    if (is_constant(term))
        return term;
    for (; bindings != NULL; bindings = bindings->outer)
        if (bindings->variable == term - FIRST_VARIABLE)
            return bindings->cell;
    return candidate[term - FIRST_VARIABLE];
}
