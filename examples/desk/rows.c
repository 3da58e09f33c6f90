#include "asked.h"
#include "cells.h"
#include "counted.h"
#include "refusal.h"
#include "sheets.h"

static uint32_t higher_mark(uint32_t mark, const uint32_t *cells, size_t count)
{
    for (size_t i = 0; i < count; i++)
        if (is_mark(cells[i]) && cells[i] - PLOTASK_CONSTANTS > mark)
            mark = cells[i] - PLOTASK_CONSTANTS;
    return mark;
}

static uint32_t highest_in_rows(const struct plot *plot, const struct cells *row)
{
    return higher_mark(higher_mark(0, row->cells, row->count), plot->words, plot->header.used);
}

/* Counts the marks of fills too, since they stand again after a take-back, and those of rows asked about. */
static uint32_t highest_mark(const struct desk *desk, const struct cells *row)
{
    const struct plot *plot = &desk->plot;
    uint32_t mark = highest_in_rows(plot, row);

    for (size_t i = 0; i < plot->fill_count; i++)
        if (plot->fills[i].mark > mark)
            mark = plot->fills[i].mark;
    for (size_t i = 0; i < desk->asked_count; i++)
        mark = higher_mark(mark, desk->asked[i].cells, desk->asked[i].cell_count);
    return mark;
}

/* Gives each blank a mark of its own, above all others. Above m200 there is no cell, so that plotask refuses it. */
static void mark_blanks(const struct desk *desk, struct cells *row)
{
    uint32_t mark = highest_mark(desk, row);

    for (size_t i = 0; i < row->count; i++)
        if (row->blank[i])
            row->cells[i] = PLOTASK_MARK(++mark);
}

/* plotask found a number that is no cell (16). If none was typed, it is a blank for which no mark was left (17). */
static bool refuse_cell(const struct desk *desk, struct line *line, const struct cells *row)
{
    const struct plot *plot = &desk->plot;
    struct cells typed = *row;

    for (size_t i = 0; i < row->count; i++)
        if (row->blank[i])
            typed.cells[i] = 0;
    size_t at = cell_at_fault(plot, typed.cells, row->count);
    if (at < row->count)
        return refuse_number(line, row->at[at], PLOTASK_NOT_A_CELL);
    bool elsewhere = highest_in_rows(plot, &typed) < highest_mark(desk, &typed);
    return refuse(line, row->at[cell_at_fault(plot, row->cells, row->count)], PLOTASK_NULLS_EXHAUSTED, "%s%s",
                  meaning(PLOTASK_NULLS_EXHAUSTED),
                  elsewhere ? "; the highest is in a fill or in a row asked about" : "");
}

static bool refuse_row(const struct desk *desk, struct line *line, uint32_t refusal, uint32_t sheet, size_t sheet_at,
                       const struct cells *row)
{
    if (refusal == PLOTASK_NOT_A_CELL)
        return refuse_cell(desk, line, row);
    if (refusal != PLOTASK_WRONG_ROW_LENGTH)
        return refuse_number(line, sheet_at, refusal);
    uint32_t columns = desk->plot.header.arities[sheet];
    return refuse(line, row->count > columns ? row->at[columns] : line->at, refusal, "%s: %s has %u %s%s",
                  meaning(refusal), desk->plot.sheets[sheet].name, COUNTED(columns, "column"));
}

static void say_blanks(FILE *out, const struct cells *row)
{
    char text[CELL_TEXT];
    unsigned blanks = 0, said = 0;

    for (size_t i = 0; i < row->count; i++)
        blanks += row->blank[i];
    for (size_t i = 0; i < row->count; i++)
        if (row->blank[i]) {
            write_cell(text, row->cells[i]);
            fprintf(out, "%s %s", said++ > 0 ? "," : blanks > 1 ? "; the blanks are" : "; the blank is", text);
        }
}

/* [enter] SHEET CELL.. */
bool enter(struct desk *desk, struct line *line)
{
    struct plot *plot = &desk->plot;
    struct cells row;
    uint32_t sheet;
    size_t sheet_at = next_at(line);

    if (!take_sheet(line, plot, &sheet) || !take_cells(line, true, &row))
        return false;
    if (!at_end(line))
        return expected(line, line->at, "a cell: a value, 0 to 999999, a mark, m1 to m200, or a blank, -");
    mark_blanks(desk, &row);
    uint32_t refusal =
        plotask_insert(PLOTASK_HEADER(&plot->header), plot->words, PLOTASK_WORDS, sheet, row.cells, row.count);
    if (refusal != PLOTASK_DONE)
        return refuse_row(desk, line, refusal, sheet, sheet_at, &row);
    unsigned rows = count_rows(plot, sheet);
    fprintf(desk->out, "%s has %u %s%s", plot->sheets[sheet].name, COUNTED(rows, "row"));
    say_blanks(desk->out, &row);
    fputc('\n', desk->out);
    say_changes(desk);
    return true;
}
