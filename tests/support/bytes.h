/* Numbers as bytes, high byte first. */
#ifndef BYTES_H
#define BYTES_H

#include <stdbool.h>
#include <stddef.h>
#include <stdint.h>

/* Writes a number as `width` bytes at index *length, and moves *length past them. */
static inline void put_number(uint8_t *bytes, size_t *length, uint32_t number, size_t width)
{
    while (width-- > 0)
        bytes[(*length)++] = (uint8_t)(number >> 8 * width);
}

/* Bytes to be read, and how far they have been read. */
struct bytes {
    const uint8_t *start;
    size_t length;
    size_t at;
};

/* Reads the next number of `width` bytes; false if one of them is missing. */
static inline bool take_number(struct bytes *from, size_t width, uint32_t *number)
{
    if (from->length - from->at < width)
        return false;
    *number = 0;
    for (size_t i = 0; i < width; i++)
        *number = *number << 8 | from->start[from->at++];
    return true;
}

#endif
