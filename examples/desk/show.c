#include "cells.h"
#include "counted.h"
#include "refusal.h"
#include "sheets.h"

#include <string.h>

static void show_sheet(FILE *out, const struct plot *plot, uint32_t sheet)
{
    const struct sheet *names = &plot->sheets[sheet];
    uint32_t columns = plot->header.arities[sheet];
    int width[PLOTASK_COLUMNS];
    char text[CELL_TEXT];

    for (uint32_t j = 0; j < columns; j++)
        width[j] = (int)strlen(names->columns[j]);
    for (size_t at = next_row(plot, sheet, 0); at < plot->header.used; at = next_row(plot, sheet, at + 1 + columns)) {
        for (uint32_t j = 0; j < columns; j++) {
            int length = write_cell(text, plot->words[at + 1 + j]);
            width[j] = length > width[j] ? length : width[j];
        }
    }
    unsigned rows = count_rows(plot, sheet);
    fprintf(out, "%s, %u %s%s\n", names->name, COUNTED(rows, "row"));
    for (uint32_t j = 0; j < columns; j++)
        fprintf(out, "  %*s", width[j], names->columns[j]);
    fputc('\n', out);
    for (size_t at = next_row(plot, sheet, 0); at < plot->header.used; at = next_row(plot, sheet, at + 1 + columns)) {
        for (uint32_t j = 0; j < columns; j++) {
            write_cell(text, plot->words[at + 1 + j]);
            fprintf(out, "  %*s", width[j], text);
        }
        fputc('\n', out);
    }
}

/* show [SHEET] */
bool show(struct desk *desk, struct line *line)
{
    const struct plot *plot = &desk->plot;
    uint32_t sheet = 0, last = plot->header.relations;

    if (!at_end(line)) {
        size_t at = line->at;
        if (!take_sheet(line, plot, &sheet) || !take_end(line))
            return false;
        if (sheet >= plot->header.relations)
            return expected(line, at, "the name of a sheet, or its number");
        last = sheet + 1;
    } else if (last == 0) {
        fputs("no sheets yet\n", desk->out);
    }
    for (; sheet < last; sheet++)
        show_sheet(desk->out, plot, sheet);
    return true;
}

/* census */
bool census(struct desk *desk, struct line *line)
{
    uint32_t counts[PLOTASK_MARKS], count, standing = 0;

    if (!take_end(line))
        return false;
    uint32_t refusal = plotask_null_counts(PLOTASK_HEADER(&desk->plot.header), desk->plot.words, PLOTASK_WORDS, counts,
                                           PLOTASK_MARKS, &count);
    if (refusal != PLOTASK_DONE)
        return refuse_number(line, line->start, refusal);
    for (uint32_t i = 0; i < PLOTASK_MARKS; i++)
        if (counts[i] > 0) {
            fprintf(desk->out, "m%u stands in %u %s%s\n", (unsigned)i + 1, COUNTED(counts[i], "cell"));
            standing++;
        }
    if (standing == 0)
        fputs("no mark stands\n", desk->out);
    return true;
}
