#include "session.h"
#include "reference/reference.h"

#include <string.h>

void start_session(struct session *session)
{
    const char *program = session->program;

    memset(session, 0, sizeof *session);
    session->program = program;
}

bool start_sheet(struct session *session, const char *name, uint32_t columns)
{
    if (!add_sheet(&session->sheets, name, columns))
        return false;
    header_of_rows(session->header, session->sheets.count, session->sheets.columns, session->words,
                   session->header[HEADER_USED]);
    return true;
}

static uint32_t higher(uint32_t mark, uint32_t cell)
{
    return mark_of(cell) > mark ? mark_of(cell) : mark;
}

static uint32_t highest_in(const struct cells *cells, uint32_t mark)
{
    for (size_t i = 0; i < cells->count; i++)
        mark = higher(mark, cells->cell[i]);
    return mark;
}

/* The highest mark that stands in the plot or in this row, or that may come to stand again. */
static uint32_t highest_mark(const struct session *session, const struct cells *row)
{
    uint32_t mark = highest_in(row, 0);

    for (uint32_t i = 0; i < session->header[HEADER_USED]; i++)
        mark = higher(mark, session->words[i]);
    for (size_t i = 0; i < session->fill_count; i++)
        mark = higher(higher(mark, PLOTASK_MARK(session->fills[i].mark)), session->fills[i].cell);
    for (size_t i = 0; i < session->asked_count; i++)
        mark = highest_in(&session->asked[i].row, mark);
    return mark;
}

uint32_t enter_row(struct session *session, uint32_t sheet, struct cells *row)
{
    uint32_t mark = highest_mark(session, row);

    for (size_t i = 0; i < row->count; i++)
        if (row->cell[i] == BLANK)
            row->cell[i] = PLOTASK_MARK(++mark);
    uint32_t number =
        ref_insert(session->header, HEADER_WORDS, session->words, MOST_WORDS, sheet, row->cell, row->count);
    if (number == 0)
        session->sheets.rows[sheet]++;
    /* nothing that was typed is at fault, so there was no mark left for a blank */
    if (number == PLOTASK_NOT_A_CELL && !has_cell(row, NO_CELL))
        return PLOTASK_NULLS_EXHAUSTED;
    return number;
}

uint32_t make_fill(struct session *session, struct fill fill, uint32_t *count)
{
    uint32_t number = ref_substitute_logged(session->header, HEADER_WORDS, session->words, MOST_WORDS, session->log,
                                            LOG_WORDS, &session->log_used, fill.mark, fill.cell, count);

    if (number == 0)
        session->fills[session->fill_count++] = fill;
    return number;
}

uint32_t take_fill_back(struct session *session, uint32_t *mark, uint32_t *count)
{
    uint32_t number = ref_undo(session->header, HEADER_WORDS, session->words, MOST_WORDS, session->log, LOG_WORDS,
                               &session->log_used, count);

    if (number != 0)
        return number;
    *mark = session->fills[--session->fill_count].mark;
    for (size_t i = 0; i < session->asked_count; i++)
        if (session->asked[i].fills_before > session->fill_count)
            session->asked[i].fills_before = session->fill_count;
    return 0;
}
