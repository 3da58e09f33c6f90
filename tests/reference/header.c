#include "header.h"

#include <string.h>

void header_start(uint32_t *header, uint32_t relations, const uint32_t *arities)
{
    memset(header, 0, HEADER_WORDS * sizeof *header);
    header[HEADER_RELATIONS] = relations;
    memcpy(header + HEADER_ARITIES, arities, relations * sizeof *arities);
}

void header_add_row(uint32_t *header, uint32_t relation)
{
    header[HEADER_USED] += 1 + arity_of(header, relation);
    header[HEADER_COUNTS + relation]++;
}

void header_drop_rows(uint32_t *header)
{
    header[HEADER_USED] = 0;
    memset(header + HEADER_COUNTS, 0, MOST_RELATIONS * sizeof *header);
}

void header_of_rows(uint32_t *header, uint32_t relations, const uint32_t *arities, const uint32_t *words, size_t used)
{
    header_start(header, relations, arities);
    while (header[HEADER_USED] < used)
        header_add_row(header, words[header[HEADER_USED]]);
}
