#include "input.h"
#include "bytes.h"

#include <string.h>

size_t write_input(const struct input *input, uint8_t *bytes)
{
    size_t length = 0;
    put_number(bytes, &length, (uint32_t)input->card_length, 2);
    memcpy(bytes + length, input->card, input->card_length);
    length += input->card_length;
    put_number(bytes, &length, (uint32_t)input->query_length, 2);
    for (size_t i = 0; i < input->query_length; i++)
        put_number(bytes, &length, input->query[i], 4);
    put_number(bytes, &length, (uint32_t)input->candidate_length, 1);
    for (size_t i = 0; i < input->candidate_length; i++)
        put_number(bytes, &length, input->candidate[i], 3);
    put_number(bytes, &length, input->budget, 4);
    return length;
}
