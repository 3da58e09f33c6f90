/* The time of the row test alone, by the library and by C written by hand: a table of docs/BENCHMARKS.md. */
#include "baseline/loops.h"
#include "work/full.h"

#include <stdio.h>

static void table_row(const struct full_plot *full)
{
    work *const works[] = {ask, ask_zero, row_tests_by_hand};
    double ns[3];

    prepare_row_tests(full);
    must_do(ask_zero);
    must_answer(ask, full, ROW_TESTS);
    must_answer(row_tests_by_hand, full, ROW_TESTS);
    times_of(works, 3, ns);
    double library = row_test_ns(ns[0], ns[1]), hand = ns[2] / ROW_TESTS;
    printf("| %s | %.0f | %.0f | %.3g |\n", full->name, library, hand, library / hand);
}

int main(void)
{
    puts("\n## The row test\n");
    puts("| the asked row | library, ns | C by hand, ns | ratio |");
    puts("|---|---|---|---|");
    for (int i = 0; i < FULL_PLOTS; i++)
        table_row(&full_plots[i]);
    return 0;
}
