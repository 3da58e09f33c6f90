/* The sheets of a plot by their names, numbered from 0. */
#ifndef SHEETS_H
#define SHEETS_H

#include "plotask.h"
#include "scan.h"

struct sheets {
    uint32_t count;
    char names[PLOTASK_RELATIONS][NAME_BYTES];
    uint32_t columns[PLOTASK_RELATIONS];
    uint32_t rows[PLOTASK_RELATIONS];
};

/* False if there are 8 sheets, the name is a sheet's, or the columns are not 1 to 6. */
bool add_sheet(struct sheets *sheets, const char *name, uint32_t columns);

/* The number of the sheet with this name; the number of sheets if none has it. */
uint32_t sheet_by_name(const struct sheets *sheets, const char *name);

#endif
