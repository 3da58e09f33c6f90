#include "cells.h"

bool take_mark(struct line *line, uint32_t *mark)
{
    struct word word = take_word(line);
    uint64_t number;

    if (!word_numbered(word, 'm', PLOTASK_MARKS, &number))
        return expected(line, word.at, "a mark, m1 to m200");
    *mark = (uint32_t)number;
    return true;
}

/* Reads a word as a cell, also if its number is out of range; false if it is neither a number nor a mark. */
static bool word_cell(struct word word, uint32_t *cell)
{
    uint64_t number;

    if (word_numbered(word, 'm', PLOTASK_MARKS, &number))
        *cell = PLOTASK_MARK(number);
    else if (word_number(word, 0, PLOTASK_CONSTANTS - 1, &number))
        *cell = (uint32_t)number;
    else
        return false;
    return true;
}

bool take_cell(struct line *line, uint32_t *cell)
{
    struct word word = take_word(line);

    return word_cell(word, cell) || expected(line, word.at, "a value, 0 to 999999, or a mark, m1 to m200");
}

bool take_cells(struct line *line, bool blanks, struct cells *cells)
{
    cells->count = 0;
    for (;;) {
        size_t at = next_at(line);
        bool blank = blanks && next_is(line, '-');
        struct line ahead = *line;
        uint32_t cell = 0;
        if (blank)
            ahead.at++;
        else if (!word_cell(take_word(&ahead), &cell))
            return true;
        char next = ahead.text[ahead.at];
        if (next != '\0' && next != ' ' && next != '\t')
            return expected(line, ahead.at, "a space after a cell");
        line->at = ahead.at;
        if (cells->count == ROW_ROOM)
            continue;
        cells->cells[cells->count] = cell;
        cells->blank[cells->count] = blank;
        cells->at[cells->count++] = at;
    }
}

size_t cell_at_fault(const struct plot *plot, const uint32_t *cells, size_t count)
{
    static const uint32_t no_question[PLOTASK_NODE_WORDS] = {PLOTASK_EQUAL};
    uint32_t truth, looks;

    for (size_t i = 0; i < count; i++)
        if (plotask_ask_unlisted(PLOTASK_CONST_HEADER(&plot->header), plot->words, PLOTASK_WORDS, no_question,
                                 PLOTASK_NODE_WORDS, cells, i + 1, 1, &truth, &looks) == PLOTASK_BAD_CANDIDATE)
            return i;
    return count;
}

int write_cell(char text[CELL_TEXT], uint32_t cell)
{
    return is_mark(cell) ? snprintf(text, CELL_TEXT, "m%u", (unsigned)(cell - PLOTASK_CONSTANTS))
                         : snprintf(text, CELL_TEXT, "%u", (unsigned)cell);
}

void print_cells(FILE *out, const uint32_t *cells, size_t count)
{
    char text[CELL_TEXT];

    for (size_t i = 0; i < count; i++) {
        write_cell(text, cells[i]);
        fprintf(out, " %s", text);
    }
}
