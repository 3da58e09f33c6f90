#include "cells.h"
#include "plotask.h"
#include "scan.h"

#include <stdio.h>
#include <string.h>

bool scan_mark(const char **at, uint32_t *mark)
{
    const char *next = *at;
    char name[NAME_BYTES];

    if (!scan_name(&next, name) || !number_in_name(name, 'm', mark))
        return false;
    *at = next;
    return true;
}

/* Whether a cell may end here. */
static bool is_after_cell(const char *at)
{
    return *at == ' ' || *at == '\t' || *at == '\0';
}

bool scan_cell(const char **at, uint32_t *cell)
{
    const char *next = *at;
    uint32_t number;

    if (scan_sign(&next, '-'))
        *cell = BLANK;
    else if (scan_mark(&next, &number))
        *cell = number >= 1 && number <= PLOTASK_MARKS ? PLOTASK_MARK(number) : NO_CELL;
    else if (scan_number(&next, &number))
        *cell = number < PLOTASK_CONSTANTS ? number : NO_CELL;
    else
        return false;
    if (!is_after_cell(next))
        return false;
    *at = next;
    return true;
}

bool scan_cells(const char **at, struct cells *cells)
{
    uint32_t cell;

    cells->count = 0;
    while (scan_cell(at, &cell)) {
        if (cells->count == MOST_CELLS)
            return false;
        cells->cell[cells->count++] = cell;
    }
    return true;
}

bool has_cell(const struct cells *cells, uint32_t cell)
{
    for (size_t i = 0; i < cells->count; i++)
        if (cells->cell[i] == cell)
            return true;
    return false;
}

bool same_cells(const struct cells *left, const struct cells *right)
{
    return left->count == right->count && memcmp(left->cell, right->cell, left->count * sizeof *left->cell) == 0;
}

void fill_cells(struct cells *cells, uint32_t mark, uint32_t cell)
{
    for (size_t i = 0; i < cells->count; i++)
        if (cells->cell[i] == PLOTASK_MARK(mark))
            cells->cell[i] = cell;
}

uint32_t mark_of(uint32_t cell)
{
    return cell >= PLOTASK_FIRST_MARK && cell <= PLOTASK_LAST_MARK ? cell - PLOTASK_CONSTANTS : 0;
}

void write_cell(uint32_t cell, char text[CELL_BYTES])
{
    uint32_t mark = mark_of(cell);

    snprintf(text, CELL_BYTES, mark ? "m%u" : "%u", (unsigned)(mark ? mark : cell));
}
