/* Relation 0 of a plot as a table of SQLite, in memory. A null is entered as NULL: SQLite has no numbers for nulls. */
#ifndef TABLE_H
#define TABLE_H

#include "work/sample.h"

#include <sqlite3.h>

/* The most columns of a table, and what SQLite answers besides 0 and 1. */
enum { TABLE_COLUMNS = PLOTASK_COLUMNS, ANSWER_NULL = 2 };

/* A table `sheet` with the columns a to f, as many as relation 0 has, and its rows. */
sqlite3 *open_table(const struct sample *sample);

/* Adds an index over all columns. */
void add_index(sqlite3 *database, uint32_t columns);

/* A test whether a row is in the table, by EXISTS with a comparison of each column, or by IN; negated, with NOT. */
enum test { BY_EXISTS, BY_IN };
sqlite3_stmt *prepare_test(sqlite3 *database, uint32_t columns, enum test test, int negated);

/* Runs the test for a row, with its nulls as NULL. Returns 0, 1 or ANSWER_NULL. */
int answer_of(sqlite3_stmt *test, const uint32_t *row, uint32_t columns);

/* Ends the program if SQLite's plan for a test does not have these words. */
void must_plan(sqlite3_stmt *test, const char *words);

#endif
