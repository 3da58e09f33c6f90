/*
 * The calls of this build of the library against those of another build, in one run. Beside it stand two controls: each
 * build against a copy of itself. A ratio against the other build means something only if it is clearly farther from 1
 * than the controls'. The symbols of this build have the prefix this_, those of the other other_, and those of the
 * copies control_ and other_control_: all are called in the same way.
 *
 * Each build is lent headers of its own length. A shorter header is the start of a longer one, so all builds are lent
 * the same struct. One that takes no counts writes none, but none is needed after it: what decode writes is not read,
 * and an inserted row is taken back with the whole header.
 */
#include "work/full.h"

#include <stdio.h>

/*
 * A build from before the log has a decode without log_used. By the x86-64 calling convention this seventh argument is
 * on the stack and the caller's to remove, so that decode can be called as declared here, and does not look at it.
 */
CALLS(this_);
CALLS(control_);
CALLS(other_);
CALLS(other_control_);

/* Such a build lacks the two calls with a log, and builds after it may lack the unlisted ask: they are then null. */
#pragma weak other_plotask_substitute_logged
#pragma weak other_plotask_undo
#pragma weak other_plotask_ask_unlisted
#pragma weak other_control_plotask_substitute_logged
#pragma weak other_control_plotask_undo
#pragma weak other_control_plotask_ask_unlisted

static const struct build this = BUILD(this_), control = BUILD(control_);
static struct build other = BUILD(other_), other_control = BUILD(other_control_);

/* The lengths that a header has had: with the row counts, and up to them. */
static const size_t header_lengths[] = {PLOTASK_HEADER_WORDS,
                                        offsetof(struct plotask_header, counts) / sizeof(uint32_t)};

/* The length of the headers that a build takes: the one with which it does not refuse an empty plot. */
static size_t header_words_of(const struct build *which)
{
    struct plotask_header empty = {.relations = 1, .arities = {1}};
    uint32_t plot[1] = {0}, counts[PLOTASK_MARKS], marks;

    for (size_t i = 0; i < sizeof header_lengths / sizeof *header_lengths; i++)
        if (which->null_counts(plotask_header_words(&empty), header_lengths[i], plot, 1, counts, PLOTASK_MARKS,
                               &marks) == PLOTASK_DONE)
            return header_lengths[i];
    must(0, "the other build takes no header of a length that is known here");
    return 0;
}

/* The call that is timed. */
static work *timed;

static void by(const struct build *which)
{
    build = which;
    timed();
}

static void by_this(void)
{
    by(&this);
}

static void by_control(void)
{
    by(&control);
}

static void by_other(void)
{
    by(&other);
}

static void by_other_control(void)
{
    by(&other_control);
}

/* As many buckets as every cell needs for a constant of its own: the worst case of the listing. */
static void share_four_buckets(struct sample *sample)
{
    share_buckets(sample, 4, PLOTASK_CELLS);
}

static void ask_first_columns(struct sample *sample)
{
    ask_row(sample, 0);
}

static const struct {
    const char *name;
    uint32_t columns, rows, values;
    void (*change)(struct sample *sample); /* of the plot, or null */
    void (*query)(struct sample *sample);
    work *call;
} queries[] = {
    {"no row asked; 3,510 different values", PLOTASK_COLUMNS, FULL_ROWS, PLOTASK_CELLS, NULL, ask_nothing, ask},
    {"one row, no match; 3,510 different values", PLOTASK_COLUMNS, FULL_ROWS, PLOTASK_CELLS, NULL, ask_absent_row, ask},
    {"no row asked; 3,510 different values, chosen to share four buckets", PLOTASK_COLUMNS, FULL_ROWS, PLOTASK_CELLS,
     share_four_buckets, ask_nothing, ask},
    {"no row asked; 16 different values", PLOTASK_COLUMNS, FULL_ROWS, FEW_VALUES, NULL, ask_nothing, ask},
    {"one row, no match; 16 different values", PLOTASK_COLUMNS, FULL_ROWS, FEW_VALUES, NULL, ask_absent_row, ask},
    {"one row, match in the first row; 16 different values", PLOTASK_COLUMNS, FULL_ROWS, FEW_VALUES, NULL,
     ask_first_columns, ask},
    {"for every pair of values one row, match in the first row; 16 different values", PLOTASK_COLUMNS, FULL_ROWS,
     FEW_VALUES, NULL, ask_first_row, ask},
    {"for every value one row, no match; 16 different values", PLOTASK_COLUMNS, FULL_ROWS, FEW_VALUES, NULL, ask_absent,
     ask},
    {"no row asked; 1 value", PLOTASK_COLUMNS, FULL_ROWS, 1, NULL, ask_nothing, ask},
    {"one row, unifies with every row; marks in every row, 205 different values", PLOTASK_COLUMNS, FULL_ROWS, 1,
     null_every_row, ask_first_columns, ask},
    {"no row asked; 4,096 words in rows of one cell, 16 different values", 1, PLOTASK_WORDS / 2, FEW_VALUES, NULL,
     ask_nothing, ask},
    {"no row asked; 4,096 words in rows of one cell, eight sheets in turn, 16 different values", 1, PLOTASK_WORDS / 2,
     FEW_VALUES, spread_rows, ask_nothing, ask},
    {"one row, no match, refused with 46 for a budget of 100; 4,096 words in rows of one cell, 16 different values", 1,
     PLOTASK_WORDS / 2, FEW_VALUES, NULL, ask_absent_row, ask_refused},
    {"two nested quantifiers over 64 rows of one cell; 64 different values", 1, 64, 64, NULL, ask_pairs, ask},
    {"no list: one row, no match; 16 different values", PLOTASK_COLUMNS, FULL_ROWS, FEW_VALUES, NULL, ask_absent_row,
     ask_unlisted},
    {"no list: no row asked; 4,096 words in rows of one cell, 16 different values", 1, PLOTASK_WORDS / 2, FEW_VALUES,
     NULL, ask_nothing, ask_unlisted},
    {"no list: no row asked; 4,096 words in rows of one cell, eight sheets in turn, 16 different values", 1,
     PLOTASK_WORDS / 2, FEW_VALUES, spread_rows, ask_nothing, ask_unlisted},
    {"no list: for every value an equality; 16 different values", PLOTASK_COLUMNS, FULL_ROWS, FEW_VALUES, NULL,
     ask_values, ask_unlisted},
    {"no list: for every value an equality; 3,510 different values", PLOTASK_COLUMNS, FULL_ROWS, PLOTASK_CELLS, NULL,
     ask_values, ask_unlisted},
    {"no list: two nested quantifiers over 64 rows of one cell; 64 different values", 1, 64, 64, NULL, ask_pairs,
     ask_unlisted},
};

/* The other calls: how many columns and rows the plot has. */
static const struct {
    const char *name;
    work *call;
    uint32_t columns, rows;
} calls[] = {
    {"decode, 585 rows", decode, PLOTASK_COLUMNS, FULL_ROWS},
    {"decode, 2,048 rows of one column", decode, 1, PLOTASK_WORDS / 2},
    {"encode, 585 rows", encode, PLOTASK_COLUMNS, FULL_ROWS},
    {"substitute, a mark in 585 cells", substitute, PLOTASK_COLUMNS, FULL_ROWS},
    {"logged fill and undo, a mark in 585 cells", logged_and_undone, PLOTASK_COLUMNS, FULL_ROWS},
    {"null counts, 585 rows", null_counts, PLOTASK_COLUMNS, FULL_ROWS},
    {"null counts, 2,048 rows of one column", null_counts, 1, PLOTASK_WORDS / 2},
    {"insert after 584 rows", insert, PLOTASK_COLUMNS, FULL_ROWS - 1},
    {"insert after 2,047 rows of one column", insert, 1, PLOTASK_WORDS / 2 - 1},
};

enum { BUILDS = 4 };
static work *const by_build[BUILDS] = {by_this, by_control, by_other, by_other_control};

/* Whether the other build has the calls that a piece of work makes. */
static int other_has(work *call)
{
    if (call == ask_unlisted)
        return other.ask_unlisted != NULL;
    return call != logged_and_undone || (other.substitute_logged != NULL && other.undo != NULL);
}

/* Times the chosen call of all builds, in turn, and prints a row of the table. */
static void table_row(const char *asked, const char *name)
{
    double ns[BUILDS];

    for (int i = 0; i < BUILDS; i++)
        must_do(by_build[i]);
    times_of(by_build, BUILDS, ns);
    printf("| %s%s | %.0f | %.0f | %.3g | %.3g | %.3g |\n", asked, name, ns[0], ns[2], ns[0] / ns[2], ns[0] / ns[1],
           ns[2] / ns[3]);
}

static void query_rows(void)
{
    for (size_t i = 0; i < sizeof queries / sizeof *queries; i++) {
        make_plot(&now, queries[i].columns, queries[i].rows, queries[i].values);
        if (queries[i].change)
            queries[i].change(&now);
        queries[i].query(&now);
        timed = queries[i].call;
        if (other_has(timed))
            table_row("", queries[i].name);
    }
}

/* The row of each full plot, asked once, or ROW_TESTS times for one test of the plot and one listing of its values. */
static void full_rows(const char *asked, void (*prepare)(const struct full_plot *full))
{
    timed = ask;
    for (int i = 0; i < FULL_PLOTS; i++) {
        prepare(&full_plots[i]);
        for (int k = 0; k < BUILDS; k++) {
            must_do(by_build[k]);
            must(truth == full_plots[i].truth, "a build's truth is wrong");
        }
        table_row(asked, full_plots[i].name);
    }
}

static void call_rows(void)
{
    for (size_t i = 0; i < sizeof calls / sizeof *calls; i++) {
        build = &this;
        prepare_calls(calls[i].columns, calls[i].rows);
        timed = calls[i].call;
        if (other_has(timed))
            table_row("", calls[i].name);
    }
}

int main(void)
{
    other.header_words = other_control.header_words = header_words_of(&other);
    puts("| call | this build, ns | the other, ns | ratio | ratio of this build to its copy | of the other to its copy "
         "|");
    puts("|---|---|---|---|---|---|");
    query_rows();
    full_rows("one row, ", prepare_full);
    full_rows("50 rows asked, ", prepare_row_tests);
    call_rows();
    return 0;
}
