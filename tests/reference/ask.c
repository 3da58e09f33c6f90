/* The three-valued rules and their cost. */
#include "query.h"

#include <string.h>

static struct plot plot;
static struct query query;

/* How far a walk over the range has come. */
struct walk {
    size_t listed; /* values of the list that it has passed */
    /* Without a list: the cell to go on with and, once the rows have ended, the query's term. */
    size_t row;
    size_t column;
    size_t node;
    size_t term;
};

/* One query being asked: where its values come from, and its cost so far. */
struct asking {
    const uint32_t *candidate;
    /* Moves a walk, which starts as zeros, past its next value, and writes that; false if there is no further value. */
    bool (*next_value)(const struct asking *asking, struct walk *walk, uint32_t *value);
    const uint32_t *list;
    size_t listed;
    uint64_t cost;
    uint64_t budget;
};

/* The cost only grows, so nothing more needs asking once it exceeds the budget. */
static bool is_spent(const struct asking *asking)
{
    return asking->cost > asking->budget;
}

static size_t class_of(const size_t *parent, size_t index)
{
    while (parent[index] != index)
        index = parent[index];
    return index;
}

/*
 * Indices 0 to n - 1 are the cells of a, n to 2n - 1 those of b. Those that have to hold the same value are put in one
 * class: equal cells, and the two cells of a column. The lists unify unless a class holds two different constants.
 */
static bool unify(const uint32_t *a, const uint32_t *b, size_t n)
{
    uint32_t cells[2 * MOST_COLUMNS];
    size_t parent[2 * MOST_COLUMNS];
    memcpy(cells, a, n * sizeof *cells);
    memcpy(cells + n, b, n * sizeof *cells);
    for (size_t i = 0; i < 2 * n; i++)
        parent[i] = i;
    for (size_t i = 0; i < n; i++)
        parent[class_of(parent, i)] = class_of(parent, n + i);
    for (size_t i = 0; i < 2 * n; i++)
        for (size_t j = 0; j < i; j++)
            if (cells[i] == cells[j])
                parent[class_of(parent, i)] = class_of(parent, j);
    for (size_t i = 0; i < 2 * n; i++)
        for (size_t j = 0; j < i; j++)
            if (is_constant(cells[i]) && is_constant(cells[j]) && cells[i] != cells[j] &&
                class_of(parent, i) == class_of(parent, j))
                return false;
    return true;
}

static bool is_identical(const struct row *row, const uint32_t *cells)
{
    return memcmp(row->cells, cells, plot.arities[row->relation] * sizeof *cells) == 0;
}

/* "The rows of its sheet up to and including the first identical one, or all of them where none is identical." */
static uint64_t rows_charged(uint32_t relation, const uint32_t *cells)
{
    uint64_t rows = 0;
    for (size_t i = 0; i < plot.row_count; i++) {
        if (plot.rows[i].relation != relation)
            continue;
        rows++;
        if (is_identical(&plot.rows[i], cells))
            return rows;
    }
    return rows;
}

static enum truth row_stands(struct asking *asking, uint32_t relation, const uint32_t *cells)
{
    enum truth truth = TRUTH_FALSE;
    asking->cost += 1 + rows_charged(relation, cells);
    for (size_t i = 0; i < plot.row_count; i++) {
        const struct row *row = &plot.rows[i];
        if (row->relation != relation)
            continue;
        if (is_identical(row, cells))
            truth = TRUTH_TRUE;
        else if (truth == TRUTH_FALSE && unify(row->cells, cells, plot.arities[relation]))
            truth = TRUTH_UNKNOWN;
    }
    return truth;
}

static enum truth equal(struct asking *asking, uint32_t a, uint32_t b)
{
    asking->cost += 1;
    if (a == b)
        return TRUTH_TRUE;
    return is_constant(a) && is_constant(b) ? TRUTH_FALSE : TRUTH_UNKNOWN;
}

static enum truth swapped(enum truth truth)
{
    if (truth == TRUTH_UNKNOWN)
        return TRUTH_UNKNOWN;
    return truth == TRUTH_TRUE ? TRUTH_FALSE : TRUTH_TRUE;
}

static enum truth lower(enum truth a, enum truth b)
{
    return a < b ? a : b;
}

static enum truth higher(enum truth a, enum truth b)
{
    return a > b ? a : b;
}

/* How truths are joined: "and" and "every" by ALL, "or" and "some" by ANY. */
struct junction {
    enum truth start; /* over no values */
    enum truth stop;  /* nothing more is asked after it */
    enum truth (*join)(enum truth, enum truth);
};

static const struct junction ALL = {TRUTH_TRUE, TRUTH_FALSE, lower};
static const struct junction ANY = {TRUTH_FALSE, TRUTH_TRUE, higher};

static enum truth truth_of(struct asking *asking, const struct node *node, const struct binding *bindings);

static enum truth over_children(struct asking *asking, const struct junction *junction, const struct node *node,
                                const struct binding *bindings)
{
    enum truth truth = truth_of(asking, node->left, bindings);
    return truth == junction->stop ? truth : junction->join(truth, truth_of(asking, node->right, bindings));
}

static enum truth over_values(struct asking *asking, const struct junction *junction, const struct node *node,
                              const struct binding *bindings)
{
    struct binding binding = {node->variable, 0, bindings};
    struct walk walk = {0};
    enum truth truth = junction->start;
    while (truth != junction->stop && !is_spent(asking) && asking->next_value(asking, &walk, &binding.cell))
        truth = junction->join(truth, truth_of(asking, node->left, &binding));
    return truth;
}

/* The truth has no meaning if the budget is spent. */
static enum truth truth_of(struct asking *asking, const struct node *node, const struct binding *bindings)
{
    uint32_t cells[MOST_COLUMNS];
    if (is_spent(asking))
        return TRUTH_UNKNOWN;
    for (size_t i = 0; i < node->term_count; i++)
        cells[i] = term_cell(node->terms[i], bindings, asking->candidate);
    switch (node->kind) {
    case ROW_STANDS:
        return row_stands(asking, node->relation, cells);
    case EQUAL:
        return equal(asking, cells[0], cells[1]);
    case NOT:
        return swapped(truth_of(asking, node->left, bindings));
    case AND:
        return over_children(asking, &ALL, node, bindings);
    case OR:
        return over_children(asking, &ANY, node, bindings);
    case SOME:
        return over_values(asking, &ANY, node, bindings);
    case EVERY:
        return over_values(asking, &ALL, node, bindings);
    }
    return TRUTH_UNKNOWN;
}

static bool next_listed(const struct asking *asking, struct walk *walk, uint32_t *value)
{
    if (walk->listed == asking->listed)
        return false;
    *value = asking->list[walk->listed++];
    return true;
}

/* Whether a cell stands in a row before this one, or in this row in a column before the given one. */
static bool stood_in_plot(uint32_t cell, size_t row, size_t column)
{
    for (size_t i = 0; i < column; i++)
        if (plot.rows[row].cells[i] == cell)
            return true;
    for (size_t earlier = 0; earlier < row; earlier++)
        for (size_t i = 0; i < plot.arities[plot.rows[earlier].relation]; i++)
            if (plot.rows[earlier].cells[i] == cell)
                return true;
    return false;
}

/* The same of a node and a term. */
static bool stood_in_query(uint32_t constant, size_t node, size_t term)
{
    for (size_t i = 0; i < term; i++)
        if (query.nodes[node].terms[i] == constant)
            return true;
    for (size_t earlier = 0; earlier < node; earlier++)
        for (size_t i = 0; i < query.nodes[earlier].term_count; i++)
            if (query.nodes[earlier].terms[i] == constant)
                return true;
    return false;
}

/* "By walking the rows and passing over any cell that stood earlier." */
static bool next_in_rows(struct walk *walk, uint32_t *value)
{
    for (; walk->row < plot.row_count; walk->row++, walk->column = 0) {
        const struct row *row = &plot.rows[walk->row];
        while (walk->column < plot.arities[row->relation]) {
            size_t column = walk->column++;
            *value = row->cells[column];
            if (!stood_in_plot(*value, walk->row, column))
                return true;
        }
    }
    return false;
}

/* The query's terms, passing over variables and any constant that stood earlier, in the plot or in the query. */
static bool next_in_query(struct walk *walk, uint32_t *value)
{
    for (; walk->node < query.node_count; walk->node++, walk->term = 0) {
        const struct node *node = &query.nodes[walk->node];
        while (walk->term < node->term_count) {
            size_t term = walk->term++;
            *value = node->terms[term];
            if (is_constant(*value) && !stood_in_plot(*value, plot.row_count, 0) &&
                !stood_in_query(*value, walk->node, term))
                return true;
        }
    }
    return false;
}

static bool next_walked(const struct asking *asking, struct walk *walk, uint32_t *value)
{
    (void)asking;
    return next_in_rows(walk, value) || next_in_query(walk, value);
}

/* Takes plot and query apart: returns 0, or the first refusal that both ways of asking have. */
static uint32_t take_apart(const uint32_t *header, size_t header_length, const uint32_t *words, size_t length,
                           const uint32_t *query_words, size_t query_length, const uint32_t *candidate,
                           size_t candidate_length)
{
    uint32_t refusal = plot_take_apart(&plot, header, header_length, words, length);
    return refusal != 0 ? refusal
                        : query_take_apart(&query, &plot, query_words, query_length, candidate, candidate_length);
}

static uint32_t answer(struct asking *asking, uint32_t *truth, uint32_t *cost)
{
    enum truth of_query = truth_of(asking, &query.nodes[0], NULL);
    if (is_spent(asking))
        return 46;
    *truth = of_query;
    *cost = (uint32_t)asking->cost;
    return 0;
}

uint32_t ref_ask(const uint32_t *header, size_t header_length, const uint32_t *words, size_t length,
                 const uint32_t *query_words, size_t query_length, const uint32_t *candidate, size_t candidate_length,
                 uint32_t *list, size_t list_length, uint32_t budget, uint32_t *truth, uint32_t *cost)
{
    struct asking asking = {.candidate = candidate, .next_value = next_listed, .list = list, .budget = budget};
    uint32_t refusal =
        take_apart(header, header_length, words, length, query_words, query_length, candidate, candidate_length);
    if (refusal != 0)
        return refusal;
    if (list_length < plot_cells(&plot) + query_constants(&query))
        return 45;
    asking.listed = query_range(&query, &plot, list);
    return answer(&asking, truth, cost);
}

uint32_t ref_ask_unlisted(const uint32_t *header, size_t header_length, const uint32_t *words, size_t length,
                          const uint32_t *query_words, size_t query_length, const uint32_t *candidate,
                          size_t candidate_length, uint32_t budget, uint32_t *truth, uint32_t *cost)
{
    struct asking asking = {.candidate = candidate, .next_value = next_walked, .budget = budget};
    uint32_t refusal =
        take_apart(header, header_length, words, length, query_words, query_length, candidate, candidate_length);
    return refusal != 0 ? refusal : answer(&asking, truth, cost);
}
