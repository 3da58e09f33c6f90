/* What SQLite answers where a null stands, beside the library's truth: a table of docs/BENCHMARKS.md. */
#include "sqlite/table.h"
#include "work/work.h"

#include <stdio.h>
#include <string.h>

enum { MOST_ROWS = 2 };

#define M(m) PLOTASK_MARK(m)

static const struct {
    uint32_t columns, row_count;
    uint32_t rows[MOST_ROWS][TABLE_COLUMNS];
    uint32_t asked[TABLE_COLUMNS];
    int negated;
    uint32_t truth;
    int exists, in;
} cases[] = {
    {2, 1, {{1, 2}}, {1, 2}, 0, PLOTASK_TRUE, 1, 1},
    {2, 1, {{1, 2}}, {1, 3}, 0, PLOTASK_FALSE, 0, 0},
    {2, 1, {{1, 2}}, {1, 3}, 1, PLOTASK_TRUE, 1, 1},
    {2, 2, {{1, M(1)}, {1, 2}}, {1, 2}, 0, PLOTASK_TRUE, 1, 1},
    {2, 1, {{1, M(1)}}, {1, 2}, 0, PLOTASK_UNKNOWN, 0, ANSWER_NULL},
    {2, 1, {{1, M(1)}}, {1, 2}, 1, PLOTASK_UNKNOWN, 1, ANSWER_NULL},
    {2, 1, {{1, M(1)}}, {3, 2}, 0, PLOTASK_FALSE, 0, 0},
    {1, 1, {{M(1)}}, {M(1)}, 0, PLOTASK_TRUE, 0, ANSWER_NULL},
    {1, 1, {{M(1)}}, {M(1)}, 1, PLOTASK_FALSE, 1, ANSWER_NULL},
    {1, 1, {{M(1)}}, {M(2)}, 0, PLOTASK_UNKNOWN, 0, ANSWER_NULL},
    {2, 1, {{1, M(1)}}, {1, M(1)}, 0, PLOTASK_TRUE, 0, ANSWER_NULL},
    {2, 1, {{M(1), M(1)}}, {1, 2}, 0, PLOTASK_FALSE, 0, ANSWER_NULL},
    {2, 1, {{M(1), M(1)}}, {1, 2}, 1, PLOTASK_TRUE, 1, ANSWER_NULL},
    {2, 1, {{M(1), M(2)}}, {1, 2}, 0, PLOTASK_UNKNOWN, 0, ANSWER_NULL},
    {1, 1, {{5}}, {M(1)}, 0, PLOTASK_UNKNOWN, 0, ANSWER_NULL},
    {1, 1, {{5}}, {M(1)}, 1, PLOTASK_UNKNOWN, 1, ANSWER_NULL},
    {1, 0, {{0}}, {M(1)}, 0, PLOTASK_FALSE, 0, 0},
};

static void print_row(const uint32_t *cells, uint32_t columns)
{
    for (uint32_t i = 0; i < columns; i++) {
        printf(i == 0 ? "(" : ", ");
        if (cells[i] < PLOTASK_CONSTANTS)
            printf("%u", (unsigned)cells[i]);
        else
            printf("m%u", (unsigned)(cells[i] - PLOTASK_CONSTANTS));
    }
    printf(")");
}

/* The plot of a case, and its query. */
static void prepare_case(size_t at)
{
    make_plot(&now, cases[at].columns, 0, 1);
    for (uint32_t i = 0; i < cases[at].row_count; i++)
        memcpy(add_row(&now, 0), cases[at].rows[i], cases[at].columns * sizeof *cases[at].rows[i]);
    now.candidate_cells = cases[at].columns;
    memcpy(now.candidate, cases[at].asked, cases[at].columns * sizeof *now.candidate);
    if (cases[at].negated)
        add_node(&now, PLOTASK_NOT, 1, 0);
    add_row_node(&now, 0, 1);
}

static int by_sqlite(sqlite3 *database, size_t at, enum test test)
{
    sqlite3_stmt *statement = prepare_test(database, cases[at].columns, test, cases[at].negated);
    int answer = answer_of(statement, cases[at].asked, cases[at].columns);

    sqlite3_finalize(statement);
    return answer;
}

static void table_row(size_t at)
{
    static const char *const truths[] = {"false", "unknown", "true"}, *const answers[] = {"0", "1", "NULL"};

    prepare_case(at);
    must_do(ask);
    sqlite3 *database = open_table(&now);
    int exists = by_sqlite(database, at, BY_EXISTS), in = by_sqlite(database, at, BY_IN);
    sqlite3_close(database);
    printf("| ");
    for (uint32_t i = 0; i < cases[at].row_count; i++) {
        printf(i == 0 ? "" : ", ");
        print_row(cases[at].rows[i], cases[at].columns);
    }
    printf(cases[at].row_count == 0 ? "none | " : " | ");
    printf(cases[at].negated ? "not " : "");
    print_row(cases[at].asked, cases[at].columns);
    printf(" | %s | %s | %s |\n", truths[truth], answers[exists], answers[in]);
    fflush(stdout);
    must(truth == cases[at].truth, "the library's truth is not the expected one");
    must(exists == cases[at].exists && in == cases[at].in, "SQLite's answer is not the expected one");
}

int main(void)
{
    puts("\n### What SQLite answers where a null stands\n");
    puts("| rows of the sheet | asked | plotask | SQLite, EXISTS | SQLite, IN |");
    puts("|---|---|---|---|---|");
    for (size_t i = 0; i < sizeof cases / sizeof *cases; i++)
        table_row(i);
    return 0;
}
