#include "full.h"

#include <string.h>

/* A constant that no plot here has. */
enum { ABSENT = 999000 };

static void make_apart(struct sample *sample, uint32_t columns, uint32_t rows)
{
    make_plot(sample, columns, rows, FEW_VALUES);
    ask_row(sample, ABSENT);
}

static void make_identical_last(struct sample *sample, uint32_t columns, uint32_t rows)
{
    make_apart(sample, columns, rows);
    memcpy(sample->plot + sample->header.used - columns, sample->candidate, columns * sizeof *sample->plot);
}

/* Nulls alone, in turn. */
static void make_unifying(struct sample *sample, uint32_t columns, uint32_t rows)
{
    make_plot(sample, columns, rows, PLOTASK_MARKS);
    for (uint32_t row = 0; row < rows; row++)
        for (uint32_t column = 1; column <= columns; column++)
            sample->plot[row * (1 + columns) + column] += PLOTASK_FIRST_MARK;
    ask_row(sample, ABSENT);
}

static void make_null_last(struct sample *sample, uint32_t columns, uint32_t rows)
{
    make_plot(sample, columns, rows, FEW_VALUES);
    null_every_row(sample);
    ask_row(sample, 0);
}

static void make_apart_in_last(struct sample *sample, uint32_t columns, uint32_t rows)
{
    make_null_last(sample, columns, rows);
    for (uint32_t row = 1; row <= rows; row++)
        sample->plot[row * (1 + columns) - 1] = ABSENT + row % FEW_VALUES;
}

/* Every second row differs in the column before the last one instead. */
static void make_apart_in_turn(struct sample *sample, uint32_t columns, uint32_t rows)
{
    make_apart_in_last(sample, columns, rows);
    for (uint32_t row = 2; row <= rows; row += 2) {
        uint32_t *last = sample->plot + row * (1 + columns) - 1;
        last[-1] = last[0];
        last[0] = sample->candidate[columns - 1];
    }
}

/* A null in the first column of every row, which differs in the last. */
static void make_null_first(struct sample *sample, uint32_t columns, uint32_t rows)
{
    make_apart_in_last(sample, columns, rows);
    for (uint32_t row = 0; row < rows; row++)
        sample->plot[row * (1 + columns) + 1] = PLOTASK_MARK(1 + row % PLOTASK_MARKS);
}

/* The first two columns hold one null, and are asked for two constants. */
static void make_apart_by_binding(struct sample *sample, uint32_t columns, uint32_t rows)
{
    make_plot(sample, columns, rows, FEW_VALUES);
    ask_row(sample, 0);
    for (uint32_t row = 0; row < rows; row++) {
        uint32_t *cells = sample->plot + row * (1 + columns) + 1;
        memcpy(cells, sample->candidate, columns * sizeof *cells);
        cells[0] = cells[1] = PLOTASK_MARK(1 + row % PLOTASK_MARKS);
    }
}

/* A plot of several relations without rows. */
static void make_empty(struct sample *sample, uint32_t relations, const uint32_t *arities)
{
    memset(sample, 0, sizeof *sample);
    sample->header.relations = relations;
    memcpy(sample->header.arities, arities, relations * sizeof *arities);
}

/* Rows of one relation, with a small number of different values. */
static void add_rows(struct sample *sample, uint32_t relation, uint32_t rows)
{
    for (uint32_t row = 0; row < rows; row++) {
        uint32_t *cells = add_row(sample, relation);
        for (uint32_t column = 0; column < sample->header.arities[relation]; column++)
            cells[column] = (row + column) % FEW_VALUES;
    }
}

static void make_only_row_last(struct sample *sample, uint32_t columns, uint32_t rows)
{
    make_empty(sample, 2, (const uint32_t[]){columns, 1});
    add_rows(sample, 1, (PLOTASK_WORDS - rows * (1 + columns)) / 2);
    add_rows(sample, 0, rows);
    ask_row(sample, ABSENT);
}

/* Rows that differ in the last column or the one before it, in turn, after a few rows of another relation. */
static void make_wide_in_turn(struct sample *sample, uint32_t columns, uint32_t rows)
{
    make_empty(sample, 2, (const uint32_t[]){columns, 1});
    add_rows(sample, 1, (PLOTASK_WORDS - rows * (1 + columns)) / 2);
    ask_row(sample, 0);
    for (uint32_t row = 0; row < rows; row++) {
        uint32_t *cells = add_row(sample, 0);
        memcpy(cells, sample->candidate, columns * sizeof *cells);
        cells[columns - 1 - row % 2] = ABSENT;
    }
}

/* Three relations in turn, a block of rows of each. */
static void make_blocks(struct sample *sample, uint32_t columns, uint32_t rows, uint32_t block)
{
    make_empty(sample, 3, (const uint32_t[]){columns, PLOTASK_COLUMNS, 4});
    for (uint32_t row = 0; row < rows; row += block) {
        add_rows(sample, 1, block);
        add_rows(sample, 2, block);
        add_rows(sample, 0, block);
    }
    ask_row(sample, ABSENT);
}

static void make_three_blocks(struct sample *sample, uint32_t columns, uint32_t rows)
{
    make_blocks(sample, columns, rows, rows);
}

static void make_row_by_row(struct sample *sample, uint32_t columns, uint32_t rows)
{
    make_blocks(sample, columns, rows, 1);
}

const struct full_plot full_plots[FULL_PLOTS] = {
    {"no match; 1,024 rows of 3 columns, 4,096 words", make_apart, 3, 1024, PLOTASK_FALSE},
    {"match in the last row, no other unifies; 1,024 rows of 3 columns, 4,096 words", make_identical_last, 3, 1024,
     PLOTASK_TRUE},
    {"unifies with every row; 1,024 rows of 3 columns, marks alone, 4,096 words", make_unifying, 3, 1024,
     PLOTASK_UNKNOWN},
    {"equal but for a mark in the last column of every row; 1,024 rows of 3 columns, 4,096 words", make_null_last, 3,
     1024, PLOTASK_UNKNOWN},
    {"differs in the last column only; 1,024 rows of 3 columns, 4,096 words", make_apart_in_last, 3, 1024,
     PLOTASK_FALSE},
    {"differs in the second and the last column in turn; 1,024 rows of 3 columns, 4,096 words", make_apart_in_turn, 3,
     1024, PLOTASK_FALSE},
    {"a mark in the first column of every row, which differs in the last; 1,024 rows of 3 columns, 4,096 words",
     make_null_first, 3, 1024, PLOTASK_FALSE},
    {"one mark in two columns of every row, asked for two values; 1,024 rows of 3 columns, 4,096 words",
     make_apart_by_binding, 3, 1024, PLOTASK_FALSE},
    {"differs in the last two columns in turn; 584 rows of 6 columns after 4 of another sheet, 4,096 words",
     make_wide_in_turn, PLOTASK_COLUMNS, 584, PLOTASK_FALSE},
    {"no match; 2,048 rows of 1 column, 4,096 words", make_apart, 1, 2048, PLOTASK_FALSE},
    {"match in the last row, no other unifies; 2,048 rows of 1 column, 4,096 words", make_identical_last, 1, 2048,
     PLOTASK_TRUE},
    {"unifies with every row; 2,048 rows of 1 column, marks alone, 4,096 words", make_unifying, 1, 2048,
     PLOTASK_UNKNOWN},
    {"no match; the sheet's only row stands last, after 2,047 rows of 1 column of another, 4,096 words",
     make_only_row_last, 1, 1, PLOTASK_FALSE},
    {"no match; three sheets in blocks of 256 rows of 6, 4 and 3 columns, the asked one last, 4,096 words",
     make_three_blocks, 3, 256, PLOTASK_FALSE},
    {"no match; three sheets of 6, 4 and 3 columns in turn, row by row, 4,096 words", make_row_by_row, 3, 256,
     PLOTASK_FALSE},
};

void prepare_full(const struct full_plot *full)
{
    full->make(&now, full->columns, full->rows);
    must(now.header.used == PLOTASK_WORDS, "a plot does not use 4,096 words");
}

void prepare_row_tests(const struct full_plot *full)
{
    prepare_full(full);
    ask_row_often(&now, full->truth == PLOTASK_TRUE ? PLOTASK_AND : PLOTASK_OR);
}

void must_answer(work *piece, const struct full_plot *full, uint32_t tests)
{
    must_do(piece);
    must(truth == full->truth, "a row test's truth is wrong");
    must(count == tests * (1 + full->rows), "a row test's cost is wrong");
}

double row_test_ns(double query_ns, double zero_ns)
{
    return (query_ns - zero_ns) / ROW_TESTS;
}
