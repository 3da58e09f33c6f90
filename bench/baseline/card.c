/* Decode and encode. Bytes are written one by one, for speed. */
#include "baseline.h"

static uint32_t field_at(const uint8_t *p)
{
    return (uint32_t)p[0] << 16 | (uint32_t)p[1] << 8 | p[2];
}

/* The number of bits that are set in a map of six. */
static uint32_t bits_set(uint32_t map)
{
    map = (map & 0x15) + (map >> 1 & 0x15);
    map = (map & 0x33) + (map >> 2 & 0x33);
    return (map & 0x0F) + (map >> 4);
}

/* The number of bytes of the record at p, of a card that ends at `end`; 0 if it breaks a rule. */
static size_t measure_record(const struct plotask_header *header, const uint8_t *p, const uint8_t *end,
                             uint32_t *blanks, uint32_t *highest)
{
    if (end - p < 2 || p[0] >= header->relations || p[1] >> header->arities[p[0]] != 0)
        return 0;
    uint32_t fields = bits_set(p[1]);
    if ((size_t)(end - p) < 2 + 3 * fields)
        return 0;
    for (uint32_t i = 0; i < fields; i++) {
        uint32_t cell = field_at(p + 2 + 3 * i);
        if (!is_cell_number(cell))
            return 0;
        *highest = cell > *highest ? cell : *highest;
    }
    *blanks += header->arities[p[0]] - fields;
    return 2 + 3 * fields;
}

/* Writes the row of a record that has been measured, and returns the record's end. */
static const uint8_t *decode_record(const uint8_t *p, uint32_t columns, uint32_t *to, uint32_t *blank)
{
    uint32_t map = p[1];

    *to++ = p[0];
    p += 2;
    for (uint32_t i = 0; i < columns; i++, map >>= 1) {
        if (map & 1) {
            *to++ = field_at(p);
            p += 3;
        } else {
            *to++ = ++*blank;
        }
    }
    return p;
}

/* What comes before the records; returns 0 if it breaks a rule. */
static int decode_head(const uint8_t *card, size_t bytes, struct plotask_header *header)
{
    if (bytes < 1 || card[0] < 1 || card[0] > PLOTASK_RELATIONS || bytes < 3u + card[0])
        return 0;
    header->relations = card[0];
    for (uint32_t i = 0; i < header->relations; i++) {
        header->arities[i] = card[1 + i];
        if (header->arities[i] - 1 >= PLOTASK_COLUMNS)
            return 0;
    }
    return 1;
}

uint32_t decode_card(const uint8_t *card, size_t bytes, struct plotask_header *header, uint32_t *plot,
                     size_t plot_words)
{
    struct plotask_header read = {0};
    uint32_t blanks = 0, highest = PLOTASK_CONSTANTS;

    if (!decode_head(card, bytes, &read))
        return 0;
    const uint8_t *rows = card + 1 + read.relations;
    const uint8_t *first = rows + 2, *p = first, *end = card + bytes;
    uint32_t count = (uint32_t)rows[0] << 8 | rows[1];
    for (uint32_t i = 0; i < count; i++) {
        size_t size = measure_record(&read, p, end, &blanks, &highest);
        if (size == 0)
            return 0;
        read.used += 1 + read.arities[p[0]];
        read.counts[p[0]]++;
        p += size;
    }
    if (p != end || highest + blanks > PLOTASK_LAST_MARK || read.used > PLOTASK_WORDS || read.used > plot_words)
        return 0;
    p = first;
    for (uint32_t i = 0; i < count; i++) {
        uint32_t columns = read.arities[p[0]];
        p = decode_record(p, columns, plot, &highest);
        plot += 1 + columns;
    }
    *header = read;
    return read.used;
}

uint32_t encode_card(const struct plotask_header *header, const uint32_t *plot, size_t plot_words, uint8_t *card,
                     size_t bytes)
{
    uint32_t rows = 0;

    if (!is_sound(header, plot, plot_words))
        return 0;
    for (uint32_t i = 0; i < header->relations; i++)
        rows += header->counts[i];
    uint32_t size = 3 + header->relations + 3 * header->used - rows;
    if (bytes < size)
        return 0;
    *card++ = (uint8_t)header->relations;
    for (uint32_t i = 0; i < header->relations; i++)
        *card++ = (uint8_t)header->arities[i];
    *card++ = (uint8_t)(rows >> 8);
    *card++ = (uint8_t)rows;
    for (const uint32_t *end = plot + header->used; plot < end;) {
        uint32_t columns = header->arities[*plot];
        *card++ = (uint8_t)*plot++;
        *card++ = (uint8_t)((1u << columns) - 1);
        for (; columns > 0; columns--, plot++) {
            *card++ = (uint8_t)(*plot >> 16);
            *card++ = (uint8_t)(*plot >> 8);
            *card++ = (uint8_t)*plot;
        }
    }
    return size;
}
