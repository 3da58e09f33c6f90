/* Queries: a random tree, whose nodes are then numbered in an order that puts each child after its parent. */
#include "generate.h"

#include <string.h>

struct tree_node {
    uint32_t words[NODE_WORDS];
    size_t children[2];
    size_t child_count;
    size_t first_child_word;
};

struct tree {
    struct random *random;
    const struct palette *palette;
    const uint32_t *header;
    size_t chain;     /* of 8 joins, about this many put a single node on one side */
    size_t constants; /* of 8 terms where a variable is bound, about this many are constants */
    struct tree_node nodes[MOST_NODES + 1];
    size_t node_count;
};

/* A constant for a term: most often of the palette, else a limit, or one that may be a variable's or node's number. */
static uint32_t named_constant(struct tree *tree)
{
    switch (below(tree->random, 16)) {
    case 0:
        return one_in(tree->random, 2) ? 0 : CONSTANTS - 1;
    case 1:
        return below(tree->random, one_in(tree->random, 2) ? VARIABLES : MOST_NODES);
    default:
        return any_constant(tree->random, tree->palette);
    }
}

/* A constant, or a variable that is bound here. */
static uint32_t make_term(struct tree *tree, uint32_t bound)
{
    if (bound != 0 && below(tree->random, 8) >= tree->constants) {
        uint32_t variable = below(tree->random, VARIABLES);
        while ((bound >> variable & 1) == 0)
            variable = (variable + 1) % VARIABLES;
        return FIRST_VARIABLE + variable;
    }
    return named_constant(tree);
}

static void make_leaf(struct tree *tree, struct tree_node *node, uint32_t bound)
{
    size_t terms = 2;
    size_t first = 1;
    node->words[0] = EQUAL;
    if (!one_in(tree->random, 3)) {
        node->words[0] = ROW_STANDS;
        node->words[1] = below(tree->random, tree->header[HEADER_RELATIONS]);
        terms = arity_of(tree->header, node->words[1]);
        first = 2;
    }
    for (size_t i = 0; i < terms; i++)
        node->words[first + i] = make_term(tree, bound);
}

/* Grows a tree of exactly `size` nodes with at most `depth` quantifiers above one another; returns its top's index. */
static size_t grow(struct tree *tree, size_t size, size_t depth, uint32_t bound)
{
    size_t index = tree->node_count++;
    struct tree_node *node = &tree->nodes[index];
    memset(node, 0, sizeof *node);
    if (size == 1) {
        make_leaf(tree, node, bound);
    } else if (size == 2 || one_in(tree->random, 2)) {
        bool quantifier = depth > 0 && !one_in(tree->random, 3);
        node->child_count = 1;
        if (quantifier) {
            node->words[0] = one_in(tree->random, 2) ? SOME : EVERY;
            node->words[1] = below(tree->random, one_in(tree->random, 3) ? VARIABLES : 4);
            node->first_child_word = 2;
            bound |= 1u << node->words[1];
        } else {
            node->words[0] = NOT;
            node->first_child_word = 1;
        }
        node->children[0] = grow(tree, size - 1, depth - quantifier, bound);
    } else {
        size_t left = 1 + below(tree->random, size - 2);
        if (below(tree->random, 8) < tree->chain)
            left = one_in(tree->random, 2) ? 1 : size - 2;
        node->words[0] = one_in(tree->random, 2) ? AND : OR;
        node->first_child_word = 1;
        node->child_count = 2;
        node->children[0] = grow(tree, left, depth, bound);
        node->children[1] = grow(tree, size - 1 - left, depth, bound);
    }
    return index;
}

/* Numbers the nodes: any node whose parent has a number may be next. */
static void number_nodes(struct tree *tree, struct any_query *query)
{
    size_t ready[MOST_NODES + 1] = {0};
    size_t ready_count = 1;
    uint32_t *parent_words[MOST_NODES + 1] = {NULL};
    size_t manner = below(tree->random, 3);
    for (uint32_t number = 0; number < tree->node_count; number++) {
        size_t pick = manner == 0 ? 0 : manner == 1 ? ready_count - 1 : below(tree->random, ready_count);
        size_t index = ready[pick];
        struct tree_node *node = &tree->nodes[index];
        uint32_t *words = query->words + number * NODE_WORDS;
        ready[pick] = ready[--ready_count];
        memcpy(words, node->words, sizeof node->words);
        if (parent_words[index] != NULL)
            *parent_words[index] = number;
        for (size_t i = 0; i < node->child_count; i++) {
            parent_words[node->children[i]] = words + node->first_child_word + i;
            ready[ready_count++] = node->children[i];
        }
    }
    query->length = tree->node_count * NODE_WORDS;
}

/* Nested quantifiers multiply the cost, so most queries have few of them above one another, but one at least. */
static size_t any_depth(struct random *random, size_t value_count)
{
    size_t depth = 0;
    if (one_in(random, 12) || value_count <= 1)
        return 99;
    size_t factor = value_count < 50 ? value_count : 50;
    for (size_t cost = factor; cost <= 2000 && depth < 6; cost *= factor)
        depth++;
    return depth;
}

static size_t any_node_count(struct random *random)
{
    if (one_in(random, 60))
        return MOST_NODES;
    if (one_in(random, 150))
        return MOST_NODES + 1;
    return 1 + below(random, one_in(random, 8) ? MOST_NODES : 12);
}

void make_query(struct random *random, const struct palette *palette, const uint32_t *header, size_t value_count,
                size_t k, struct any_query *query)
{
    static struct tree tree;
    tree.random = random;
    tree.palette = palette;
    tree.header = header;
    tree.chain = below(random, 9);
    tree.constants = below(random, 5);
    tree.node_count = 0;
    size_t depth = any_depth(random, value_count + tree.constants);
    size_t size = any_node_count(random);
    grow(&tree, size, depth, (1u << k) - 1);
    number_nodes(&tree, query);
}

/* The index, among a plot's words, of the row that one of them belongs to. */
static size_t any_row(struct random *random, const struct any_plot *plot)
{
    size_t word = below(random, plot->header[HEADER_USED]);
    size_t row = 0;
    for (size_t next = 0; next <= word; next += 1 + arity_of(plot->header, plot->words[row]))
        row = next;
    return row;
}

void make_row_query(struct random *random, const struct palette *palette, const struct any_plot *plot,
                    struct any_cells *candidate, struct any_query *query)
{
    const uint32_t *row = plot->words + any_row(random, plot);
    candidate->length = arity_of(plot->header, row[0]);
    memcpy(candidate->cells, row + 1, candidate->length * sizeof *row);
    if (one_in(random, 4))
        candidate->cells[below(random, candidate->length)] = any_cell(random, palette);
    query->length = NODE_WORDS;
    memset(query->words, 0, NODE_WORDS * sizeof *query->words);
    query->words[0] = ROW_STANDS;
    query->words[1] = row[0];
    for (uint32_t i = 0; i < candidate->length; i++) {
        uint32_t cell = candidate->cells[i];
        query->words[2 + i] = cell < CONSTANTS && one_in(random, 4) ? cell : FIRST_VARIABLE + i;
    }
}

/* C stands for any constant. */
enum { V0 = FIRST_VARIABLE, V1, V2, C = CONSTANTS };

static const struct {
    size_t nodes;
    uint32_t words[7][NODE_WORDS];
} value_queries[NO_VALUE_QUERY] = {
    [ALL_VALUES] = {2, {{EVERY, 1, 1}, {EQUAL, V1, V1}}},
    [VALUES_UP_TO_ONE] = {2, {{SOME, 1, 1}, {EQUAL, V1, V0}}},
    [VALUES_UP_TO_EACH] = {3, {{EVERY, 1, 1}, {SOME, 2, 2}, {EQUAL, V2, V1}}},
    [ALL_AND_NAMED] = {6, {{OR, 3, 1}, {OR, 5, 2}, {EQUAL, C, C}, {EVERY, 1, 4}, {EQUAL, V1, V1}, {EQUAL, C, C}}},
    [UP_TO_ONE_AND_NAMED] = {6, {{OR, 3, 1}, {OR, 5, 2}, {EQUAL, C, C}, {SOME, 1, 4}, {EQUAL, V1, V0}, {EQUAL, C, C}}},
    [UP_TO_EACH_AND_NAMED] =
        {7, {{OR, 3, 1}, {OR, 5, 2}, {EQUAL, C, C}, {EVERY, 1, 4}, {SOME, 2, 6}, {EQUAL, C, C}, {EQUAL, V2, V1}}},
};

/* A cell to find among a plot's values: its last word, any word, or the number of a relation, which may be no value. */
static uint32_t cell_to_find(struct random *random, const struct any_plot *plot)
{
    size_t used = plot->header[HEADER_USED];
    if (one_in(random, 3))
        return below(random, plot->header[HEADER_RELATIONS]);
    return plot->words[one_in(random, 3) ? used - 1 : below(random, used)];
}

/* A constant of the plot, a small one that may be the number of a node, variable or relation, a limit, or any. */
static uint32_t constant_to_name(struct random *random, const struct any_plot *plot)
{
    uint32_t word = plot->words[below(random, plot->header[HEADER_USED])];
    if (one_in(random, 3) && word < CONSTANTS)
        return word;
    if (one_in(random, 2))
        return below(random, MOST_RELATIONS);
    if (one_in(random, 2))
        return one_in(random, 2) ? 0 : CONSTANTS - 1;
    return below(random, CONSTANTS);
}

/* Puts constants for C, and some of them twice; the candidate may be one of them. */
static void name_constants(struct random *random, const struct any_plot *plot, struct any_cells *candidate,
                           struct any_query *query)
{
    uint32_t last = constant_to_name(random, plot);
    for (size_t i = 0; i < query->length; i++)
        if (query->words[i] == C) {
            last = one_in(random, 4) ? last : constant_to_name(random, plot);
            query->words[i] = last;
            if (one_in(random, 4))
                candidate->cells[0] = last;
        }
}

void make_value_query(struct random *random, const struct any_plot *plot, struct any_cells *candidate,
                      struct any_query *query)
{
    bool few = count_values(plot) < 60;
    size_t choice = below(random, few ? ALL_AND_NAMED : VALUES_UP_TO_EACH) + (one_in(random, 2) ? ALL_AND_NAMED : 0);
    candidate->length = 1;
    candidate->cells[0] = cell_to_find(random, plot);
    query->length = value_queries[choice].nodes * NODE_WORDS;
    memcpy(query->words, value_queries[choice].words, query->length * sizeof *query->words);
    name_constants(random, plot, candidate, query);
}

static bool is_value_query(const struct any_query *query, size_t choice)
{
    const uint32_t *words = value_queries[choice].words[0];
    if (query->length != value_queries[choice].nodes * NODE_WORDS)
        return false;
    for (size_t i = 0; i < query->length; i++)
        if (words[i] == C ? query->words[i] >= CONSTANTS : query->words[i] != words[i])
            return false;
    return true;
}

enum value_query value_query_of(const struct any_query *query)
{
    size_t choice = 0;
    while (choice < NO_VALUE_QUERY && !is_value_query(query, choice))
        choice++;
    return (enum value_query)choice;
}

void make_any_query(struct random *random, const struct palette *palette, const struct any_plot *plot,
                    struct any_cells *candidate, struct any_query *query)
{
    size_t values = count_values(plot);
    if (values > 0 && one_in(random, 8))
        make_row_query(random, palette, plot, candidate, query);
    else if (values > 0 && (one_in(random, 8) || (values > 100 && !one_in(random, 4))))
        make_value_query(random, plot, candidate, query);
    else
        make_query(random, palette, plot->header, values, candidate->length, query);
}

void make_endless_query(struct random *random, struct any_query *query)
{
    uint32_t *words = query->words;
    query->length = 12 * NODE_WORDS;
    memset(words, 0, query->length * sizeof *words);
    for (uint32_t number = 0; number < 11; number++, words += NODE_WORDS) {
        words[0] = EVERY;
        words[1] = number;
        words[2] = number + 1;
    }
    words[0] = EQUAL;
    words[1] = words[2] = FIRST_VARIABLE + below(random, 11);
}

void damage_query(struct random *random, struct any_query *query)
{
    if (query->length == 0)
        return;
    size_t index = below(random, query->length);
    size_t kind_word = index - index % NODE_WORDS;
    switch (below(random, 8)) {
    case 0:
        query->length = one_in(random, 4) ? index : query->length - 1;
        break;
    case 1: /* words after the last node: one too many, or a node that none names */
        query->words[query->length] = ROW_STANDS + below(random, EVERY);
        for (size_t i = 1; i < NODE_WORDS; i++)
            query->words[query->length + i] = 0;
        query->length += one_in(random, 2) ? 1 : NODE_WORDS;
        break;
    case 2: /* one node less: a child is missing */
        if (query->length > NODE_WORDS)
            query->length -= NODE_WORDS;
        break;
    case 3:
        query->words[kind_word] = odd_number(random, query->words[kind_word]);
        break;
    case 4: /* the word of a child, a relation or a variable */
        query->words[kind_word + 1] = odd_number(random, query->words[kind_word + 1]);
        break;
    case 5:
        query->words[kind_word + 2] = odd_number(random, query->words[kind_word + 2]);
        break;
    case 6:
        query->words[index] = query->words[below(random, query->length)];
        break;
    default:
        query->words[index] = odd_number(random, query->words[index]);
    }
}
