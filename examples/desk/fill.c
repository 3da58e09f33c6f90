#include "asked.h"
#include "cells.h"
#include "counted.h"
#include "refusal.h"

static bool refuse_fill(struct line *line, uint32_t refusal, size_t mark_at, size_t cell_at)
{
    switch (refusal) {
    case PLOTASK_NO_SUCH_NULL:
    case PLOTASK_NULL_ABSENT:
        return refuse_number(line, mark_at, refusal);
    case PLOTASK_NOT_A_CELL:
        return refuse_number(line, cell_at, refusal);
    default:
        return refuse_number(line, line->start, refusal);
    }
}

/* fill MARK CELL */
bool fill(struct desk *desk, struct line *line)
{
    struct plot *plot = &desk->plot;
    uint32_t mark, cell, count;
    char text[CELL_TEXT];
    size_t mark_at = next_at(line);

    if (!take_mark(line, &mark))
        return false;
    size_t cell_at = next_at(line);
    if (!take_cell(line, &cell) || !take_end(line))
        return false;
    uint32_t refusal = plotask_substitute_logged(PLOTASK_HEADER(&plot->header), plot->words, PLOTASK_WORDS, plot->log,
                                                 LOG_WORDS, &plot->log_used, mark, cell, &count);
    if (refusal != PLOTASK_DONE)
        return refuse_fill(line, refusal, mark_at, cell_at);
    plot->fills[plot->fill_count++] = (struct fill){mark, cell};
    write_cell(text, cell);
    fprintf(desk->out, "m%u %s %s, in %u %s%s\n", (unsigned)mark, cell == PLOTASK_MARK(mark) ? "stays" : "is now", text,
            COUNTED(count, "cell"));
    say_settled(desk);
    return true;
}

/* take back */
bool take_back(struct desk *desk, struct line *line)
{
    struct plot *plot = &desk->plot;
    struct word back = take_word(line);
    uint32_t count;

    if (!word_is(back, "back"))
        return expected(line, back.at, "\"back\"");
    if (!take_end(line))
        return false;
    uint32_t refusal = plotask_undo(PLOTASK_HEADER(&plot->header), plot->words, PLOTASK_WORDS, plot->log, LOG_WORDS,
                                    &plot->log_used, &count);
    if (refusal != PLOTASK_DONE)
        return refuse_number(line, line->start, refusal);
    plot->fill_count--;
    fprintf(desk->out, "m%u stands again, in %u %s%s\n", (unsigned)plot->fills[plot->fill_count].mark,
            COUNTED(count, "cell"));
    forget_fill(desk);
    if (say_changes(desk) == 0 && desk->asked_count > 0)
        fputs("no verdict changed\n", desk->out);
    return true;
}
