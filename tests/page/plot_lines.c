#include "plot_lines.h"
#include "asked.h"
#include "changes.h"

#include <stdio.h>

const char *obey_sheet(struct session *session, const char *rest, struct expected *expected)
{
    char name[NAME_BYTES], column[NAME_BYTES];
    uint32_t columns = 0;

    (void)expected;
    if (!scan_name(&rest, name))
        return "a sheet without a name";
    while (scan_name(&rest, column))
        columns++;
    if (!scan_end(&rest))
        return "a column without a name";
    return start_sheet(session, name, columns) ? NULL : "a sheet that the plot cannot have";
}

static const char *plural(uint32_t n)
{
    return n == 1 ? "" : "s";
}

/* Expects a refusal, unless the number is 0; returns whether it does. */
static bool expect_refusal(struct expected *expected, uint32_t number)
{
    if (number != 0)
        expect_refused(expected, number);
    return number != 0;
}

/* Writes which marks the blanks of a row got, `; the blanks are m1, m2`. */
static void write_blanks(const struct cells *typed, const struct cells *entered, char *text, size_t room)
{
    size_t blanks = 0, length = 0;
    char cell[CELL_BYTES];

    for (size_t i = 0; i < typed->count; i++)
        blanks += typed->cell[i] == BLANK;
    text[0] = '\0';
    for (size_t i = 0; i < typed->count; i++) {
        if (typed->cell[i] != BLANK)
            continue;
        const char *before = length > 0 ? ", " : blanks == 1 ? "; the blank is " : "; the blanks are ";
        write_cell(entered->cell[i], cell);
        length += (size_t)snprintf(text + length, room - length, "%s%s", before, cell);
    }
}

const char *obey_row(struct session *session, uint32_t sheet, const char *rest, struct expected *expected)
{
    struct cells typed;
    char blanks[128]; /* a row that is not refused has at most six */

    if (!scan_cells(&rest, &typed) || !scan_end(&rest))
        return "a row that cannot be read";
    struct cells row = typed;
    if (expect_refusal(expected, enter_row(session, sheet, &row)))
        return NULL;
    uint32_t rows = session->sheets.rows[sheet];
    write_blanks(&typed, &row, blanks, sizeof blanks);
    expect_line(expected, "%s has %u row%s%s", session->sheets.names[sheet], (unsigned)rows, plural(rows), blanks);
    const char *fault = ask_again(session);
    if (!fault)
        expect_changed(expected, session);
    return fault;
}

const char *obey_fill(struct session *session, const char *rest, struct expected *expected)
{
    struct fill fill;
    uint32_t count = 0;
    char cell[CELL_BYTES];

    if (!scan_mark(&rest, &fill.mark) || !scan_cell(&rest, &fill.cell) || fill.cell == BLANK || !scan_end(&rest))
        return "a fill that cannot be read";
    if (expect_refusal(expected, make_fill(session, fill, &count)))
        return NULL;
    write_cell(fill.cell, cell);
    expect_line(expected, "m%u %s %s, in %u cell%s", (unsigned)fill.mark,
                mark_of(fill.cell) == fill.mark ? "stays" : "is now", cell, (unsigned)count, plural(count));
    const char *fault = ask_again(session);
    return fault ? fault : expect_settled(expected, session);
}

const char *obey_take_back(struct session *session, const char *rest, struct expected *expected)
{
    uint32_t mark = 0, count = 0;

    if (!scan_word(&rest, "back") || !scan_end(&rest))
        return "`take` is not followed by `back` alone";
    if (expect_refusal(expected, take_fill_back(session, &mark, &count)))
        return NULL;
    drop_repeated(session);
    expect_line(expected, "m%u stands again, in %u cell%s", (unsigned)mark, (unsigned)count, plural(count));
    const char *fault = ask_again(session);
    if (!fault && expect_changed(expected, session) == 0 && session->asked_count > 0)
        expect_line(expected, "no verdict changed");
    return fault;
}
