/* The time of a query without a working list beside that of the same query with one: a table of docs/BENCHMARKS.md. */
#include "work/work.h"

#include <stdio.h>

static void make_few(struct sample *sample)
{
    make_plot(sample, PLOTASK_COLUMNS, FULL_ROWS, FEW_VALUES);
}

static void make_marked(struct sample *sample)
{
    make_few(sample);
    null_every_row(sample);
}

static void make_one_bucket(struct sample *sample)
{
    make_few(sample);
    share_buckets(sample, 1, 205);
}

static void make_many(struct sample *sample)
{
    make_plot(sample, PLOTASK_COLUMNS, FULL_ROWS, PLOTASK_CELLS);
}

static const struct {
    const char *name;
    void (*make)(struct sample *sample);
    uint32_t values;
} plots[] = {
    {"16 different values", make_few, FEW_VALUES},
    {"118 different values, one new in 35 words", make_sparse, 118},
    {"205 different values, marks in every row", make_marked, 205},
    {"205 different values, all in one bucket", make_one_bucket, 205},
    {"3,510 different values", make_many, PLOTASK_CELLS},
};

static const struct {
    const char *name;
    void (*query)(struct sample *sample);
    uint32_t most_values; /* a query of all pairs takes too long to be timed over more */
} queries[] = {
    {"one row, no match", ask_absent_row, PLOTASK_CELLS},
    {"for every value an equality", ask_values, PLOTASK_CELLS},
    {"for every value some value, the first", ask_first_values, PLOTASK_CELLS},
    {"for every pair of values equalities", ask_pairs, 205},
};

/* Each way is timed twice: the ratio of a way to itself is what a ratio may differ by without a reason. */
static void table_row(const char *query, const char *plot)
{
    work *const works[] = {ask, ask_unlisted, ask, ask_unlisted};
    double ns[4];

    must_do(ask);
    uint32_t listed_truth = truth, listed_cost = count;
    must_do(ask_unlisted);
    must(truth == listed_truth && count == listed_cost, "the two ways of asking differ");
    times_of(works, 4, ns);
    printf("| %s; %s | %.0f | %.0f | %.3g | %.3g | %.3g |\n", query, plot, ns[0], ns[1], ns[1] / ns[0], ns[2] / ns[0],
           ns[3] / ns[1]);
}

int main(void)
{
    puts("\n## With a working list and without one\n");
    puts("| question | listed, ns | unlisted, ns | ratio of unlisted to listed | of listed to itself | of unlisted to "
         "itself |");
    puts("|---|---|---|---|---|---|");
    for (size_t i = 0; i < sizeof queries / sizeof *queries; i++)
        for (size_t j = 0; j < sizeof plots / sizeof *plots; j++) {
            if (plots[j].values > queries[i].most_values)
                continue;
            plots[j].make(&now);
            ask_values(&now);
            must_do(ask);
            must(count == plots[j].values, "a plot has another number of values");
            queries[i].query(&now);
            table_row(queries[i].name, plots[j].name);
        }
    return 0;
}
