/* The row test against SQLite: a table of docs/BENCHMARKS.md. */
#include "sqlite/table.h"
#include "work/full.h"

#include <stdio.h>

/* The same test in two databases: without an index, and with one over all columns. */
static sqlite3_stmt *without_index, *with_index;

/* SQLite's EXISTS says only whether the very row stands: an unknown is a 0, as a false is. */
static void by_sqlite(sqlite3_stmt *test)
{
    truth = answer_of(test, now.candidate, (uint32_t)now.candidate_cells) == 1 ? PLOTASK_TRUE : PLOTASK_FALSE;
    refusal = PLOTASK_DONE;
}

static void scan(void)
{
    by_sqlite(without_index);
}

static void search(void)
{
    by_sqlite(with_index);
}

static void prepare_tables(uint32_t columns)
{
    sqlite3 *plain = open_table(&now), *indexed = open_table(&now);

    add_index(indexed, columns);
    without_index = prepare_test(plain, columns, BY_EXISTS, 0);
    with_index = prepare_test(indexed, columns, BY_EXISTS, 0);
    must_plan(without_index, "SCAN sheet");
    must_plan(with_index, "SEARCH sheet USING COVERING INDEX");
}

static void close_table(sqlite3_stmt *test)
{
    sqlite3 *database = sqlite3_db_handle(test);

    sqlite3_finalize(test);
    sqlite3_close(database);
}

static void must_find(work *piece, const struct full_plot *full)
{
    must_do(piece);
    must((truth == PLOTASK_TRUE) == (full->truth == PLOTASK_TRUE), "SQLite's answer is wrong");
}

static void table_row(const struct full_plot *full)
{
    work *const works[] = {ask, ask_zero, ask_last_node, scan, search};
    double ns[5];

    prepare_row_tests(full);
    prepare_tables(full->columns);
    must_do(ask_zero);
    must_answer(ask, full, ROW_TESTS);
    must_answer(ask_last_node, full, 1);
    must_find(scan, full);
    must_find(search, full);
    times_of(works, 5, ns);
    double test = row_test_ns(ns[0], ns[1]);
    printf("| %s | %.0f | %.0f | %.0f | %.3g | %.3g | %.0f | %.3g | %.3g |\n", full->name, test, ns[2], ns[3],
           test / ns[3], ns[2] / ns[3], ns[4], test / ns[4], ns[2] / ns[4]);
    close_table(without_index);
    close_table(with_index);
}

int main(void)
{
    printf("SQLite %s.\n\n", sqlite3_libversion());
    puts("### Times\n");
    puts("| the asked row | row test, ns | whole question, ns | SQLite's scan, ns | row test to scan | question to "
         "scan | "
         "SQLite's index, ns | row test to index | question to index |");
    puts("|---|---|---|---|---|---|---|---|---|");
    for (int i = 0; i < FULL_PLOTS; i++)
        table_row(&full_plots[i]);
    return 0;
}
