/* A logged fill, and its undo. */
#include "baseline.h"

uint32_t replace_null_logged(const struct plotask_header *header, uint32_t *plot, size_t plot_words, uint32_t *log,
                             size_t log_words, size_t *log_used, uint32_t null, uint32_t cell, uint32_t *count)
{
    uint32_t old = PLOTASK_MARK(null), used = header->used, held = 0;

    if (!is_sound(header, plot, plot_words))
        return PLOTASK_UNSOUND;
    if (null - 1 >= PLOTASK_MARKS)
        return PLOTASK_NO_SUCH_NULL;
    if (!is_cell_number(cell))
        return PLOTASK_NOT_A_CELL;
    for (uint32_t i = 0; i < used; i++)
        held += plot[i] == old;
    if (held == 0)
        return PLOTASK_NULL_ABSENT;
    if (*log_used > log_words || log_words - *log_used < held + 2)
        return PLOTASK_LOG_TOO_SHORT;
    uint32_t *to = log + *log_used;
    for (uint32_t i = 0; i < used; i++) {
        uint32_t here = plot[i] == old;
        *to = i; /* if it is no place, the next place or the mark is written over it */
        to += here;
        plot[i] = here ? cell : plot[i];
    }
    to[0] = null;
    to[1] = held;
    *log_used += held + 2;
    *count = held;
    return PLOTASK_DONE;
}

/* Places rise if a fill has written them, so the rows are passed once; for a place further up they are passed anew. */
static int are_cells(const struct plotask_header *header, const uint32_t *plot, const uint32_t *places, uint32_t count)
{
    uint32_t row = 0, end = 0;

    for (uint32_t i = 0; i < count; i++) {
        uint32_t place = places[i];
        if (place >= header->used)
            return 0;
        if (place < row)
            end = 0;
        while (place >= end) {
            row = end;
            end += 1 + header->arities[plot[row]];
        }
        if (place == row)
            return 0;
    }
    return 1;
}

uint32_t undo_fill(const struct plotask_header *header, uint32_t *plot, size_t plot_words, const uint32_t *log,
                   size_t log_words, size_t *log_used, uint32_t *count)
{
    size_t used = *log_used;

    if (!is_sound(header, plot, plot_words))
        return PLOTASK_UNSOUND;
    if (used == 0)
        return PLOTASK_LOG_EMPTY;
    if (used > log_words || used < 2 || log[used - 1] > used - 2 || log[used - 2] - 1 >= PLOTASK_MARKS)
        return PLOTASK_BAD_LOG;
    uint32_t held = log[used - 1], old = PLOTASK_MARK(log[used - 2]);
    const uint32_t *places = log + (used - 2 - held);
    if (!are_cells(header, plot, places, held))
        return PLOTASK_BAD_LOG;
    for (uint32_t i = 0; i < held; i++)
        plot[places[i]] = old;
    *log_used = used - 2 - held;
    *count = held;
    return PLOTASK_DONE;
}
