/* The input of the program plotask. */
#ifndef INPUT_H
#define INPUT_H

#include <stddef.h>
#include <stdint.h>

struct input {
    const uint8_t *card;
    size_t card_length;
    const uint32_t *query;
    size_t query_length;
    const uint32_t *candidate;
    size_t candidate_length;
    uint32_t budget;
};

/* Writes the input's bytes, and returns their number. */
size_t write_input(const struct input *input, uint8_t *bytes);

#endif
