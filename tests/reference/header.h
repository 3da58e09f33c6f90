/* The header of a plot as words. The tests make every header here. */
#ifndef HEADER_H
#define HEADER_H

#include "limits.h"

#include <stddef.h>
#include <stdint.h>

/* The index of each part, and the length. */
enum {
    HEADER_RELATIONS = 0,
    HEADER_ARITIES = 1, /* eight words */
    HEADER_USED = HEADER_ARITIES + MOST_RELATIONS,
    HEADER_COUNTS = HEADER_USED + 1, /* eight words */
    HEADER_WORDS = HEADER_COUNTS + MOST_RELATIONS
};

/* Starts a plot without rows, whose relations have these arities. */
void header_start(uint32_t *header, uint32_t relations, const uint32_t *arities);

/* Takes one more row of a relation into the words in use and the counts. */
void header_add_row(uint32_t *header, uint32_t relation);

/* Starts the plot again, with the same relations and without rows. */
void header_drop_rows(uint32_t *header);

/* The header of a plot whose rows are the first `used` words. */
void header_of_rows(uint32_t *header, uint32_t relations, const uint32_t *arities, const uint32_t *words, size_t used);

static inline uint32_t arity_of(const uint32_t *header, uint32_t relation)
{
    return header[HEADER_ARITIES + relation];
}

static inline uint32_t count_of(const uint32_t *header, uint32_t relation)
{
    return header[HEADER_COUNTS + relation];
}

#endif
