#include "table.h"
#include "work/work.h"

#include <string.h>

enum { SQL_BYTES = 200 };

/* The parts of a statement for each number of columns. */
static const struct {
    const char *declared, *names, *values, *equal;
} parts[TABLE_COLUMNS] = {
    {"a INTEGER", "a", "?1", "a = ?1"},
    {"a INTEGER, b INTEGER", "a, b", "?1, ?2", "a = ?1 AND b = ?2"},
    {"a INTEGER, b INTEGER, c INTEGER", "a, b, c", "?1, ?2, ?3", "a = ?1 AND b = ?2 AND c = ?3"},
    {"a INTEGER, b INTEGER, c INTEGER, d INTEGER", "a, b, c, d", "?1, ?2, ?3, ?4",
     "a = ?1 AND b = ?2 AND c = ?3 AND d = ?4"},
    {"a INTEGER, b INTEGER, c INTEGER, d INTEGER, e INTEGER", "a, b, c, d, e", "?1, ?2, ?3, ?4, ?5",
     "a = ?1 AND b = ?2 AND c = ?3 AND d = ?4 AND e = ?5"},
    {"a INTEGER, b INTEGER, c INTEGER, d INTEGER, e INTEGER, f INTEGER", "a, b, c, d, e, f", "?1, ?2, ?3, ?4, ?5, ?6",
     "a = ?1 AND b = ?2 AND c = ?3 AND d = ?4 AND e = ?5 AND f = ?6"},
};

static void must_be(int code, int expected)
{
    must(code == expected, sqlite3_errstr(code));
}

static sqlite3_stmt *prepare(sqlite3 *database, const char *sql)
{
    sqlite3_stmt *statement;

    must_be(sqlite3_prepare_v2(database, sql, -1, &statement, NULL), SQLITE_OK);
    return statement;
}

static void run(sqlite3 *database, const char *sql)
{
    must_be(sqlite3_exec(database, sql, NULL, NULL, NULL), SQLITE_OK);
}

static void bind(sqlite3_stmt *statement, const uint32_t *row, uint32_t columns)
{
    for (uint32_t i = 0; i < columns; i++)
        must_be(row[i] < PLOTASK_CONSTANTS ? sqlite3_bind_int(statement, (int)i + 1, (int)row[i])
                                           : sqlite3_bind_null(statement, (int)i + 1),
                SQLITE_OK);
}

static void insert_rows(sqlite3 *database, const struct sample *sample)
{
    uint32_t columns = sample->header.arities[0];
    char sql[SQL_BYTES];

    sqlite3_snprintf(sizeof sql, sql, "INSERT INTO sheet VALUES (%s)", parts[columns - 1].values);
    sqlite3_stmt *insert = prepare(database, sql);
    for (uint32_t at = 0; at < sample->header.used; at += 1 + sample->header.arities[sample->plot[at]])
        if (sample->plot[at] == 0) {
            bind(insert, sample->plot + at + 1, columns);
            must_be(sqlite3_step(insert), SQLITE_DONE);
            must_be(sqlite3_reset(insert), SQLITE_OK);
        }
    must_be(sqlite3_finalize(insert), SQLITE_OK);
}

/* Without SQLite's locks, which a single thread does not need. */
sqlite3 *open_table(const struct sample *sample)
{
    uint32_t columns = sample->header.arities[0];
    char sql[SQL_BYTES];
    sqlite3 *database;

    must(columns <= TABLE_COLUMNS, "a relation has too many columns for SQLite's table");
    must_be(
        sqlite3_open_v2(":memory:", &database, SQLITE_OPEN_READWRITE | SQLITE_OPEN_CREATE | SQLITE_OPEN_NOMUTEX, NULL),
        SQLITE_OK);
    sqlite3_snprintf(sizeof sql, sql, "CREATE TABLE sheet (%s)", parts[columns - 1].declared);
    run(database, sql);
    run(database, "BEGIN");
    insert_rows(database, sample);
    run(database, "COMMIT");
    return database;
}

void add_index(sqlite3 *database, uint32_t columns)
{
    char sql[SQL_BYTES];

    sqlite3_snprintf(sizeof sql, sql, "CREATE INDEX by_row ON sheet (%s)", parts[columns - 1].names);
    run(database, sql);
}

sqlite3_stmt *prepare_test(sqlite3 *database, uint32_t columns, enum test test, int negated)
{
    const char *not = negated ? "NOT " : "";
    char sql[SQL_BYTES];

    if (test == BY_EXISTS)
        sqlite3_snprintf(sizeof sql, sql, "SELECT %sEXISTS(SELECT 1 FROM sheet WHERE %s)", not,
                         parts[columns - 1].equal);
    else
        sqlite3_snprintf(sizeof sql, sql, "SELECT %s(%s) IN (SELECT %s FROM sheet)", not, parts[columns - 1].values,
                         parts[columns - 1].names);
    return prepare(database, sql);
}

int answer_of(sqlite3_stmt *test, const uint32_t *row, uint32_t columns)
{
    bind(test, row, columns);
    must_be(sqlite3_step(test), SQLITE_ROW);
    int answer = sqlite3_column_type(test, 0) == SQLITE_NULL ? ANSWER_NULL : sqlite3_column_int(test, 0);
    must_be(sqlite3_reset(test), SQLITE_OK);
    return answer;
}

void must_plan(sqlite3_stmt *test, const char *words)
{
    char sql[SQL_BYTES];
    int found = 0;

    sqlite3_snprintf(sizeof sql, sql, "EXPLAIN QUERY PLAN %s", sqlite3_sql(test));
    sqlite3_stmt *plan = prepare(sqlite3_db_handle(test), sql);
    while (sqlite3_step(plan) == SQLITE_ROW)
        found |= strstr((const char *)sqlite3_column_text(plan, 3), words) != NULL;
    must_be(sqlite3_finalize(plan), SQLITE_OK);
    must(found, "SQLite has another plan than the one to be timed");
}
