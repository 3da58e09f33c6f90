#include "sample.h"

#include <string.h>

uint32_t *add_row(struct sample *sample, uint32_t relation)
{
    uint32_t *row = sample->plot + sample->header.used;

    row[0] = relation;
    sample->header.used += 1 + sample->header.arities[relation];
    sample->header.counts[relation]++;
    return row + 1;
}

void make_plot(struct sample *sample, uint32_t columns, uint32_t rows, uint32_t values)
{
    uint32_t cell = 0;

    memset(sample, 0, sizeof *sample);
    sample->header.relations = 1;
    sample->header.arities[0] = columns;
    for (uint32_t row = 0; row < rows; row++) {
        uint32_t *cells = add_row(sample, 0);
        for (uint32_t column = 0; column < columns; column++)
            cells[column] = cell++ % values;
    }
}

void make_null_row(struct sample *sample)
{
    make_plot(sample, PLOTASK_COLUMNS, 1, 1);
    for (uint32_t column = 1; column <= PLOTASK_COLUMNS; column++)
        sample->plot[column] = PLOTASK_MARK(1);
}

void null_every_row(struct sample *sample)
{
    uint32_t columns = sample->header.arities[0], row = 0;

    for (uint32_t at = 0; at < sample->header.used; at += 1 + columns, row++) {
        for (uint32_t column = 0; column < columns; column++)
            sample->plot[at + 1 + column] = column;
        sample->plot[at + columns] = PLOTASK_MARK(1 + row % PLOTASK_MARKS);
    }
}

void spread_rows(struct sample *sample)
{
    struct plotask_header *header = &sample->header;
    uint32_t columns = header->arities[0], relation = 0;

    header->relations = PLOTASK_RELATIONS;
    for (uint32_t i = 0; i < PLOTASK_RELATIONS; i++)
        header->arities[i] = columns;
    header->counts[0] = 0;
    for (uint32_t at = 0; at < header->used; at += 1 + columns) {
        sample->plot[at] = relation;
        header->counts[relation]++;
        relation = (relation + 1) % PLOTASK_RELATIONS;
    }
}

void make_sparse(struct sample *sample)
{
    make_plot(sample, PLOTASK_COLUMNS, FULL_ROWS, 1);
    for (uint32_t row = 5; row <= FULL_ROWS; row += 5)
        sample->plot[row * (1 + PLOTASK_COLUMNS) - 1] = row;
}

void share_buckets(struct sample *sample, uint32_t buckets, uint32_t values)
{
    uint32_t constant = 0, left = values;

    for (uint32_t at = 0; at < sample->header.used; at += 1 + PLOTASK_COLUMNS)
        for (uint32_t column = 1; column <= PLOTASK_COLUMNS; column++) {
            while (constant * 2654435761u >> 22 >= buckets)
                constant++;
            sample->plot[at + column] = constant;
            constant = --left > 0 ? constant + 1 : 0;
            left = left > 0 ? left : values;
        }
}

void add_node(struct sample *sample, uint32_t kind, uint32_t first, uint32_t second)
{
    uint32_t *node = sample->query + sample->query_words;

    memset(node, 0, PLOTASK_NODE_WORDS * sizeof *node);
    node[0] = kind;
    node[1] = first;
    node[2] = second;
    sample->query_words += PLOTASK_NODE_WORDS;
}

void add_row_node(struct sample *sample, uint32_t variable, uint32_t step)
{
    uint32_t *node = sample->query + sample->query_words;

    add_node(sample, PLOTASK_STANDS, 0, 0);
    for (uint32_t column = 0; column < sample->header.arities[0]; column++)
        node[2 + column] = PLOTASK_VARIABLE(variable + column * step);
}

void ask_nothing(struct sample *sample)
{
    sample->query_words = 0;
    add_node(sample, PLOTASK_EQUAL, 0, 0);
}

void ask_row(struct sample *sample, uint32_t first)
{
    sample->candidate_cells = sample->header.arities[0];
    for (uint32_t column = 0; column < sample->candidate_cells; column++)
        sample->candidate[column] = first + column;
    sample->query_words = 0;
    add_row_node(sample, 0, 1);
}

void ask_absent_row(struct sample *sample)
{
    ask_row(sample, 999000);
}

/* Nodes of one kind, each with a row on its left and the next on its right, and a row at the end. */
static void add_chain_of_rows(struct sample *sample, uint32_t kind, uint32_t levels, uint32_t variable, uint32_t step)
{
    for (uint32_t level = 0; level < levels; level++) {
        add_node(sample, kind, 2 * level + 1, 2 * level + 2);
        add_row_node(sample, variable, step);
    }
    add_row_node(sample, variable, step);
}

void ask_row_often(struct sample *sample, uint32_t kind)
{
    sample->query_words = 0;
    add_chain_of_rows(sample, kind, ROW_TESTS - 1, 0, 1);
}

void ask_first_row(struct sample *sample)
{
    sample->candidate_cells = sample->header.arities[0];
    memcpy(sample->candidate, sample->plot + 1, sample->candidate_cells * sizeof *sample->candidate);
    sample->query_words = 0;
    add_node(sample, PLOTASK_EVERY, 6, 1);
    add_node(sample, PLOTASK_EVERY, 7, 2);
    add_row_node(sample, 0, 1);
}

void ask_absent(struct sample *sample)
{
    sample->query_words = 0;
    add_node(sample, PLOTASK_EVERY, 0, 1);
    add_node(sample, PLOTASK_NOT, 2, 0);
    add_row_node(sample, 0, 0);
}

void ask_values(struct sample *sample)
{
    sample->query_words = 0;
    add_node(sample, PLOTASK_EVERY, 0, 1);
    add_node(sample, PLOTASK_EQUAL, PLOTASK_VARIABLE(0), PLOTASK_VARIABLE(0));
}

void ask_named(struct sample *sample)
{
    sample->query_words = 0;
    add_node(sample, PLOTASK_EVERY, 0, 1);
    add_node(sample, PLOTASK_OR, 3, 2);
    add_node(sample, PLOTASK_EQUAL, 999000, 999001);
    add_node(sample, PLOTASK_EQUAL, PLOTASK_VARIABLE(0), PLOTASK_VARIABLE(0));
}

void ask_first_values(struct sample *sample)
{
    sample->query_words = 0;
    add_node(sample, PLOTASK_EVERY, 0, 1);
    add_node(sample, PLOTASK_SOME, 1, 2);
    add_node(sample, PLOTASK_EQUAL, PLOTASK_VARIABLE(1), PLOTASK_VARIABLE(1));
}

void ask_pairs(struct sample *sample)
{
    sample->query_words = 0;
    add_node(sample, PLOTASK_EVERY, 0, 1);
    add_node(sample, PLOTASK_EVERY, 1, 2);
    add_node(sample, PLOTASK_OR, 3, 4);
    add_node(sample, PLOTASK_EQUAL, PLOTASK_VARIABLE(0), PLOTASK_VARIABLE(1));
    add_node(sample, PLOTASK_NOT, 5, 0);
    add_node(sample, PLOTASK_EQUAL, PLOTASK_VARIABLE(0), PLOTASK_VARIABLE(1));
}

void add_last_row(struct sample *sample)
{
    sample->header.relations = 2;
    sample->header.arities[1] = 1;
    *add_row(sample, 1) = PLOTASK_CONSTANTS - 1;
}

void ask_last_row(struct sample *sample)
{
    sample->query_words = 0;
    add_node(sample, PLOTASK_EVERY, 0, 1);
    add_node(sample, PLOTASK_NOT, 2, 0);
    add_node(sample, PLOTASK_STANDS, 1, PLOTASK_VARIABLE(0));
}

/*
 * The terms of a chain's row are the candidate's variables: a constant and then nulls that the plot lacks, so that each
 * column binds one.
 */
static void start_chain(struct sample *sample)
{
    sample->candidate_cells = PLOTASK_COLUMNS;
    sample->candidate[0] = PLOTASK_CONSTANTS - 1;
    for (uint32_t column = 1; column < PLOTASK_COLUMNS; column++)
        sample->candidate[column] = PLOTASK_MARK(1 + column);
    sample->query_words = 0;
}

void ask_chain(struct sample *sample, uint32_t kind, uint32_t nodes)
{
    start_chain(sample);
    for (uint32_t node = 0; node + 1 < nodes; node++) {
        if (kind == PLOTASK_NOT)
            add_node(sample, kind, node + 1, 0);
        else
            add_node(sample, kind, PLOTASK_CANDIDATE, node + 1);
    }
    add_row_node(sample, 0, 1);
}

void ask_and_chain(struct sample *sample, uint32_t levels)
{
    start_chain(sample);
    add_chain_of_rows(sample, PLOTASK_AND, levels, 0, 1);
}
