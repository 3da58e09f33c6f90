#include "sheets.h"
#include "counted.h"
#include "refusal.h"

#include <string.h>

uint32_t find_sheet(const struct plot *plot, struct word word)
{
    for (uint32_t i = 0; i < plot->header.relations; i++)
        if (word_is(word, plot->sheets[i].name))
            return i;
    return NO_SHEET;
}

bool take_sheet(struct line *line, const struct plot *plot, uint32_t *sheet)
{
    struct word word = take_word(line);
    uint64_t number;

    if (word_number(word, 0, NO_SHEET - 1, &number)) {
        *sheet = (uint32_t)number;
        return true;
    }
    *sheet = find_sheet(plot, word);
    return *sheet != NO_SHEET || expected(line, word.at, "the name of a sheet, or its number");
}

void name_by_number(struct plot *plot)
{
    for (unsigned i = 0; i < PLOTASK_RELATIONS; i++) {
        snprintf(plot->sheets[i].name, NAME_ROOM, "s%u", i);
        for (unsigned j = 0; j < PLOTASK_COLUMNS; j++)
            snprintf(plot->sheets[i].columns[j], NAME_ROOM, "c%u", j);
    }
}

size_t next_row(const struct plot *plot, uint32_t sheet, size_t at)
{
    while (at < plot->header.used && plot->words[at] != sheet)
        at += 1 + plot->header.arities[plot->words[at]];
    return at;
}

unsigned count_rows(const struct plot *plot, uint32_t sheet)
{
    return plot->header.counts[sheet];
}

/* Whether a plot can have one more sheet, with this number of columns: 0 if it can, or plotask's 12 or 13. */
static uint32_t test_sheet(const struct plotask_header *header, size_t columns)
{
    uint8_t card[1 + PLOTASK_RELATIONS + 1 + 2] = {(uint8_t)(header->relations + 1)};
    struct plotask_header scratch;
    size_t no_log;

    for (size_t i = 0; i < header->relations; i++)
        card[1 + i] = (uint8_t)header->arities[i];
    card[1 + header->relations] = (uint8_t)columns;
    return plotask_decode(card, header->relations + 4, PLOTASK_HEADER(&scratch), NULL, 0, &no_log);
}

/* Takes a name that can be a sheet's: a row of it starts with the name, as a command starts with its own. */
static bool take_new_name(struct line *line, const struct plot *plot, char name[NAME_ROOM])
{
    struct line ahead = *line;
    struct word word = take_word(&ahead);

    if (is_command(word))
        return expected(line, word.at, "a name that is no command");
    if (find_sheet(plot, word) != NO_SHEET)
        return expected(line, word.at, "a name that no sheet has");
    return take_name(line, "a name for the sheet", name);
}

/* Takes the names of columns up to the line's end, or to the seventh, which is counted but too many. */
static bool take_columns(struct line *line, struct sheet *sheet, size_t *columns)
{
    for (*columns = 0; !at_end(line) && *columns < PLOTASK_COLUMNS; ++*columns) {
        char *name = sheet->columns[*columns];
        size_t at = line->at;
        if (!take_name(line, "a name for a column", name))
            return false;
        for (size_t j = 0; j < *columns; j++)
            if (strcmp(sheet->columns[j], name) == 0)
                return expected(line, at, "a name that no column before it has");
    }
    *columns += !at_end(line);
    return true;
}

/* sheet NAME COLUMN.. */
bool make_sheet(struct desk *desk, struct line *line)
{
    struct plotask_header *header = &desk->plot.header;
    struct sheet sheet = {.name = ""};
    size_t columns, name_at = next_at(line);

    if (!take_new_name(line, &desk->plot, sheet.name) || !take_columns(line, &sheet, &columns))
        return false;
    uint32_t refusal = test_sheet(header, columns);
    if (refusal != PLOTASK_DONE)
        return refuse_number(line, refusal == PLOTASK_BAD_ARITY ? line->at : name_at, refusal);
    fprintf(desk->out, "sheet %u is %s, with %u %s%s:", (unsigned)header->relations, sheet.name,
            COUNTED(columns, "column"));
    for (size_t j = 0; j < columns; j++)
        fprintf(desk->out, "%s %s", j > 0 ? "," : "", sheet.columns[j]);
    fputc('\n', desk->out);
    desk->plot.sheets[header->relations] = sheet;
    header->arities[header->relations++] = (uint32_t)columns;
    return true;
}
