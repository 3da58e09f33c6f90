/* Plots with all 4,096 words in use, and for each a row to ask of its relation 0: the candidate. */
#ifndef FULL_H
#define FULL_H

#include "work.h"

struct full_plot {
    const char *name; /* what the asked row meets, and the rows of the plot */
    void (*make)(struct sample *sample, uint32_t columns, uint32_t rows);
    uint32_t columns, rows; /* of relation 0 */
    uint32_t truth;         /* of "the candidate stands in relation 0", for which every row of it has to be looked at */
};

enum { FULL_PLOTS = 15 };
extern const struct full_plot full_plots[FULL_PLOTS];

/* Makes the plot, and the query whether its candidate stands in relation 0. The program ends if a word is unused. */
void prepare_full(const struct full_plot *full);

/* The same, with the row asked ROW_TESTS times, so joined that no test is settled by those before it. */
void prepare_row_tests(const struct full_plot *full);

/* Runs work that asks the row `tests` times. The program ends if it is refused or if its truth or cost is wrong. */
void must_answer(work *piece, const struct full_plot *full, uint32_t tests);

/* The time of one of ROW_TESTS row tests, from the time of their query and that of `0 = 0` on the same plot. */
double row_test_ns(double query_ns, double zero_ns);

#endif
