/* Two-valued logic on the model. */
#include "query.h"

#include <string.h>

static struct plot plot;
static struct query query;
static uint32_t values[MOST_WORDS + MOST_TERMS];
static size_t value_count;

static void take_apart(const struct model *model, const uint32_t *words, size_t length)
{
    plot_take_apart(&plot, model->header, HEADER_WORDS, model->words, model->header[HEADER_USED]);
    query_take_apart(&query, &plot, words, length, model->candidate, model->candidate_length);
    value_count = query_range(&query, &plot, values);
}

static uint64_t leaves_of(const struct node *node)
{
    uint64_t left;
    uint64_t right;
    switch (node->kind) {
    case ROW_STANDS:
    case EQUAL:
        return 1;
    case NOT:
        return leaves_of(node->left);
    case AND:
    case OR:
        left = leaves_of(node->left);
        right = leaves_of(node->right);
        return left > UINT64_MAX - right ? UINT64_MAX : left + right;
    case SOME:
    case EVERY:
        left = leaves_of(node->left);
        return value_count != 0 && left > UINT64_MAX / value_count ? UINT64_MAX : left * value_count;
    }
    return 0;
}

uint64_t two_valued_leaves(const struct model *model, const uint32_t *words, size_t length)
{
    take_apart(model, words, length);
    return leaves_of(&query.nodes[0]);
}

static bool row_is_there(uint32_t relation, const uint32_t *cells)
{
    bool there = false;
    for (size_t i = 0; i < plot.row_count; i++)
        if (plot.rows[i].relation == relation &&
            memcmp(plot.rows[i].cells, cells, plot.arities[relation] * sizeof *cells) == 0)
            there = true;
    return there;
}

static bool yes(const struct node *node, const struct binding *bindings, const uint32_t *candidate)
{
    uint32_t cells[MOST_COLUMNS];
    struct binding binding = {node->variable, 0, bindings};
    size_t yeses = 0;
    for (size_t i = 0; i < node->term_count; i++)
        cells[i] = term_cell(node->terms[i], bindings, candidate);
    if (node->kind == SOME || node->kind == EVERY) {
        for (size_t i = 0; i < value_count; i++) {
            binding.cell = values[i];
            yeses += yes(node->left, &binding, candidate);
        }
    } else {
        yeses += node->left != NULL && yes(node->left, bindings, candidate);
        yeses += node->right != NULL && yes(node->right, bindings, candidate);
    }
    switch (node->kind) {
    case ROW_STANDS:
        return row_is_there(node->relation, cells);
    case EQUAL:
        return cells[0] == cells[1];
    case NOT:
        return yeses == 0;
    case AND:
        return yeses == 2;
    case OR:
    case SOME:
        return yeses >= 1;
    case EVERY:
        return yeses == value_count;
    }
    return false;
}

bool two_valued_yes(const struct model *model, const uint32_t *words, size_t length)
{
    take_apart(model, words, length);
    return yes(&query.nodes[0], NULL, model->candidate);
}

bool two_valued_yes_unnamed(const struct model *model, const uint32_t *words, size_t length)
{
    take_apart(model, words, length);
    value_count = plot_values(&plot, values);
    return yes(&query.nodes[0], NULL, model->candidate);
}
