#include "sheets.h"

#include <stdio.h>
#include <string.h>

bool add_sheet(struct sheets *sheets, const char *name, uint32_t columns)
{
    uint32_t number = sheets->count;

    if (number == PLOTASK_RELATIONS || sheet_by_name(sheets, name) != number)
        return false;
    if (columns < 1 || columns > PLOTASK_COLUMNS)
        return false;
    snprintf(sheets->names[number], NAME_BYTES, "%s", name);
    sheets->columns[number] = columns;
    sheets->rows[number] = 0;
    sheets->count++;
    return true;
}

uint32_t sheet_by_name(const struct sheets *sheets, const char *name)
{
    uint32_t number = 0;

    while (number < sheets->count && strcmp(sheets->names[number], name) != 0)
        number++;
    return number;
}
