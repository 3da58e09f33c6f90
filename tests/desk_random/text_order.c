#include "text_order.h"

#include <string.h>

/* Appends a node with all that is below it, and returns its number. */
static uint32_t append(const struct any_query *query, uint32_t node, struct any_query *ordered)
{
    uint32_t number = (uint32_t)(ordered->length / NODE_WORDS);
    const uint32_t *words = query->words + node * NODE_WORDS;
    uint32_t *copy = ordered->words + ordered->length;

    memcpy(copy, words, NODE_WORDS * sizeof *words);
    ordered->length += NODE_WORDS;
    if (words[0] == NOT || words[0] == AND || words[0] == OR)
        copy[1] = append(query, words[1], ordered);
    if (words[0] == AND || words[0] == OR || words[0] == SOME || words[0] == EVERY)
        copy[2] = append(query, words[2], ordered);
    return number;
}

void order_as_text(const struct any_query *query, struct any_query *ordered)
{
    ordered->length = 0;
    append(query, 0, ordered);
}
