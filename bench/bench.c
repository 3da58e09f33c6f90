/* Times of the library's calls, as ratios to C, and the stack that they need: the tables of docs/BENCHMARKS.md. */
#include "baseline/loops.h"
#include "measure/stack.h"
#include "work/full.h"

#include <stdio.h>
#include <stdlib.h>

enum { PASSES = 8 };

static void query_row(const char *name, answering *loop, uint32_t expected)
{
    work *const works[] = {ask, ask_scanning, ask_hashing, ask_reference};
    double ns[4];
    uint32_t cost = 0;

    by_hand = loop;
    for (int i = 0; i < 4; i++) {
        must_do(works[i]);
        cost = i == 0 ? count : cost;
        if (truth != expected || count != cost) {
            fprintf(stderr, "bench: a truth or a cost of '%s' differs\n", name);
            exit(1);
        }
    }
    times_of(works, 4, ns);
    printf("| %s | %.0f |", name, ns[0]);
    for (int i = 1; i < 4; i++)
        printf(" %.0f | %.3g |", ns[i], ns[0] / ns[i]);
    puts("");
}

static void query_heading(const char *title)
{
    printf("## %s\n\n", title);
    puts("| question | library, ns | C, values by scan, ns | ratio | C, values by hash table, ns | ratio | reference, "
         "ns | ratio |");
    puts("|---|---|---|---|---|---|---|---|");
}

static void query_table(void)
{
    query_heading("Questions");
    make_plot(&now, PLOTASK_COLUMNS, FULL_ROWS, FEW_VALUES);
    ask_nothing(&now);
    query_row("no row asked; 16 different values", nothing_by_hand, PLOTASK_TRUE);
    ask_row(&now, 999000);
    query_row("one row, no match; 16 different values", row_by_hand, PLOTASK_FALSE);
    ask_row(&now, 0);
    query_row("one row, match in the first row; 16 different values", row_by_hand, PLOTASK_TRUE);
    ask_absent(&now);
    query_row("for every value one row, no match; 16 different values", absent_by_hand, PLOTASK_TRUE);
    null_every_row(&now);
    ask_nothing(&now);
    query_row("no row asked; marks in every row, 205 different values", nothing_by_hand, PLOTASK_TRUE);
    ask_row(&now, 0);
    query_row("one row, unifies with every row; marks in every row", row_by_hand, PLOTASK_UNKNOWN);
    make_plot(&now, PLOTASK_COLUMNS, FULL_ROWS, PLOTASK_CELLS);
    ask_nothing(&now);
    query_row("no row asked; 3,510 different values", nothing_by_hand, PLOTASK_TRUE);
    ask_row(&now, 999000);
    query_row("one row, no match; 3,510 different values", row_by_hand, PLOTASK_FALSE);
    make_plot(&now, 1, 64, 64);
    ask_pairs(&now);
    query_row("two nested quantifiers over 64 rows of one cell; 64 different values", pairs_by_hand, PLOTASK_TRUE);
}

static void full_table(void)
{
    puts("");
    query_heading("One row, over 4,096 words in use");
    for (int i = 0; i < FULL_PLOTS; i++) {
        prepare_full(&full_plots[i]);
        must_answer(ask, &full_plots[i], 1);
        query_row(full_plots[i].name, row_by_hand, full_plots[i].truth);
    }
}

static void call_row(const char *name, work *library, work *hand, work *reference)
{
    work *const works[] = {library, hand, reference};
    double ns[3];

    for (int i = 0; i < 3; i++)
        must_do(works[i]);
    times_of(works, 3, ns);
    printf("| %s | %.0f | %.0f | %.3g | %.0f | %.3g |\n", name, ns[0], ns[1], ns[0] / ns[1], ns[2], ns[0] / ns[2]);
}

static void call_table(void)
{
    puts("\n## The other calls\n");
    puts("| call | library, ns | C by hand, ns | ratio | reference, ns | ratio |");
    puts("|---|---|---|---|---|---|");
    prepare_calls(PLOTASK_COLUMNS, FULL_ROWS);
    call_row("decode, 585 rows", decode, decode_by_hand, decode_reference);
    call_row("encode, 585 rows", encode, encode_by_hand, encode_reference);
    call_row("substitute, a mark in 585 cells", substitute, substitute_by_hand, substitute_reference);
    call_row("null counts, 585 rows", null_counts, null_counts_by_hand, null_counts_reference);
    prepare_calls(PLOTASK_COLUMNS, FULL_ROWS - 1);
    call_row("insert after 584 rows", insert, insert_by_hand, insert_reference);
}

/* A fill that is logged and undone, and beside it two fills that are not logged. */
static void fill_rows(const char *name, uint32_t columns, uint32_t rows, uint32_t step)
{
    prepare_fills(columns, rows, step);
    call_row(name, logged_and_undone, logged_and_undone_by_hand, logged_and_undone_reference);
    call_row("the same plot, two fills that are not logged", there_and_back, there_and_back_by_hand,
             there_and_back_reference);
}

static void fill_table(void)
{
    puts("\n## A fill and its undo\n");
    puts("| calls | library, ns | C by hand, ns | ratio | reference, ns | ratio |");
    puts("|---|---|---|---|---|---|");
    fill_rows("logged fill and undo, 585 rows of six columns, a mark in each row", PLOTASK_COLUMNS, FULL_ROWS,
              PLOTASK_COLUMNS);
    fill_rows("logged fill and undo, 585 rows of six columns, a mark in the last cell", PLOTASK_COLUMNS, FULL_ROWS,
              PLOTASK_CELLS);
    fill_rows("logged fill and undo, 585 rows of six columns, a mark in every cell", PLOTASK_COLUMNS, FULL_ROWS, 1);
    fill_rows("logged fill and undo, 2,048 rows of one cell, a mark in every cell", 1, PLOTASK_WORDS / 2, 1);
}

static void few_values(uint32_t rows)
{
    make_plot(&now, PLOTASK_COLUMNS, rows, FEW_VALUES);
    ask_row(&now, 999000);
}

static void many_values(uint32_t rows)
{
    make_plot(&now, PLOTASK_COLUMNS, rows, PLOTASK_CELLS);
    ask_nothing(&now);
}

static void every_of_few_values(uint32_t rows)
{
    few_values(rows);
    ask_values(&now);
}

static void every_of_many_values(uint32_t rows)
{
    many_values(rows);
    ask_values(&now);
}

static void six_columns(uint32_t rows)
{
    prepare_calls(PLOTASK_COLUMNS, rows);
}

/* The rows of a quarter, a half, and a full plot with room for one more row. */
static const uint32_t SHARES[] = {FULL_ROWS / 4, FULL_ROWS / 2, FULL_ROWS - 1};

static void growth_row(const char *name, void (*prepare)(uint32_t rows), work *piece)
{
    double ns[3];

    for (int pass = 0; pass < PASSES; pass++)
        for (int i = 0; i < 3; i++) {
            double one;
            prepare(SHARES[i]);
            must_do(piece);
            times_of(&piece, 1, &one);
            ns[i] = pass == 0 || one < ns[i] ? one : ns[i];
        }
    printf("| %s | %.0f | %.0f | %.0f | %.1f | %.1f |\n", name, ns[0], ns[1], ns[2], ns[1] / ns[0], ns[2] / ns[0]);
}

static void growth_table(void)
{
    puts("\n## Growth with the words in use\n");
    puts("| library | 1,022 words, ns | 2,044 words, ns | 4,088 words, ns | 2,044 to 1,022 | 4,088 to 1,022 |");
    puts("|---|---|---|---|---|---|");
    growth_row("ask, one row, no match; 16 different values", few_values, ask);
    growth_row("ask, no row asked; all values different", many_values, ask);
    growth_row("ask unlisted, for every value an equality; 16 different values", every_of_few_values, ask_unlisted);
    growth_row("ask unlisted, for every value an equality; all values different", every_of_many_values, ask_unlisted);
    growth_row("decode", six_columns, decode);
    growth_row("encode", six_columns, encode);
    growth_row("substitute", six_columns, substitute);
    growth_row("logged fill and undo", six_columns, logged_and_undone);
    growth_row("null counts", six_columns, null_counts);
    growth_row("insert", six_columns, insert);
}

static double time_of(work *piece)
{
    double ns;

    must_do(piece);
    times_of(&piece, 1, &ns);
    return ns;
}

/* The time of a look: what a query takes beyond one that asks no row, divided by its cost. */
static void look_row(const char *name, void (*query)(struct sample *sample))
{
    double whole = 0, none = 0;
    uint32_t cost = 0;

    for (int pass = 0; pass < PASSES; pass++) {
        query(&now);
        double ns = time_of(ask);
        whole = pass == 0 || ns < whole ? ns : whole;
        cost = count;
        ask_nothing(&now);
        ns = time_of(ask);
        none = pass == 0 || ns < none ? ns : none;
    }
    printf("| %s | %u | %.1f |\n", name, (unsigned)cost, (whole - none) / cost);
}

static void look_table(void)
{
    puts("\n## The time of a look\n");
    puts("| question | looks | ns for a look |");
    puts("|---|---|---|");
    make_plot(&now, PLOTASK_COLUMNS, FULL_ROWS, FEW_VALUES);
    look_row("for every value one row of a sheet with 585 rows, no match", ask_absent);
    look_row("for every pair of values one row of a sheet with 585 rows, match in the first row", ask_first_row);
    make_plot(&now, 1, PLOTASK_WORDS / 2 - 1, FEW_VALUES);
    add_last_row(&now);
    look_row("for every value one row of a sheet whose only row stands last, after 2,047 of one cell", ask_last_row);
    make_plot(&now, 1, 64, 64);
    look_row("two nested quantifiers over 64 values, with equalities alone", ask_pairs);
}

static void stack_row(const char *name, const char *detail, work *piece)
{
    must_do(piece);
    printf("| %s%s | %zu |\n", name, detail, stack_of(piece));
}

/* A way of asking. */
struct way {
    const char *name;
    work *ask;
};

static const struct way listed = {"ask", ask}, unlisted = {"ask unlisted", ask_unlisted};

static void chain_row(const struct way *way, const char *detail, uint32_t kind, uint32_t nodes)
{
    ask_chain(&now, kind, nodes);
    stack_row(way->name, detail, way->ask);
}

static void chain_rows(const struct way *way)
{
    make_null_row(&now);
    ask_nothing(&now);
    stack_row(way->name, ", 1 node, two terms that are equal", way->ask);
    chain_row(way, ", 1 node, a row of six columns", PLOTASK_NOT, 1);
    chain_row(way, ", 2 nodes", PLOTASK_NOT, 2);
    chain_row(way, ", 100 nodes, a chain of not", PLOTASK_NOT, PLOTASK_NODES);
    chain_row(way, ", 100 nodes, a chain of some", PLOTASK_SOME, PLOTASK_NODES);
    chain_row(way, ", 100 nodes, a chain of every", PLOTASK_EVERY, PLOTASK_NODES);
    ask_and_chain(&now, PLOTASK_NODES / 2 - 1);
    stack_row(way->name, ", 99 nodes, a chain of and", way->ask);
    many_values(FULL_ROWS);
    stack_row(way->name, ", 1 node; 3,510 different values", way->ask);
    ask_values(&now);
    stack_row(way->name, ", 2 nodes, every; 3,510 different values", way->ask);
}

static void stack_table(void)
{
    puts("\n## Stack\n");
    puts("| call | stack, bytes |");
    puts("|---|---|");
    prepare_calls(PLOTASK_COLUMNS, FULL_ROWS - 1);
    stack_row("decode", "", decode);
    stack_row("encode", "", encode);
    stack_row("insert", "", insert);
    stack_row("substitute", "", substitute);
    stack_row("logged fill", "", substitute_logged);
    stack_row("undo", "", undo);
    stack_row("null counts", "", null_counts);
    chain_rows(&listed);
    chain_rows(&unlisted);
}

int main(void)
{
    check_listing();
    query_table();
    full_table();
    call_table();
    fill_table();
    growth_table();
    look_table();
    stack_table();
    return 0;
}
