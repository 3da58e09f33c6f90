/* Cards, with blanks and without. */
#include "generate.h"
#include "support/bytes.h"

static void put(struct any_card *card, uint32_t number, size_t width)
{
    put_number(card->bytes, &card->length, number, width);
}

static void start_card(struct any_card *card, size_t words, uint32_t last_blank)
{
    card->length = 0;
    card->words = words;
    card->last_blank = last_blank;
}

/* Blanks in about this many of 16 columns. 200 nulls are soon used up, so large cards have few or none. */
static size_t any_blanks(struct random *random, const struct any_plot *plot)
{
    if (plot->header[HEADER_USED] > 100 && !one_in(random, 6))
        return 0;
    return one_in(random, 4) ? 16 : below(random, 5);
}

/* Rows of one blank column, with at most one written null among them, so that the last blank gets a null near 200. */
static void make_blank_card(struct random *random, struct any_card *card)
{
    uint32_t blanks = one_in(random, 3) ? below(random, 20) : 190 + below(random, 13);
    uint32_t highest = blanks >= NULLS - 1 ? below(random, 3) : NULLS - 1 - blanks + below(random, 3);
    uint32_t rows = blanks + (highest > 0);
    start_card(card, 2 * rows, blanks > 0 ? highest + blanks : 0);
    put(card, 1, 1);
    put(card, 1, 1);
    put(card, rows, 2);
    uint32_t written = below(random, blanks + 1);
    for (uint32_t i = 0; i <= blanks; i++) {
        if (i == written && highest > 0) {
            put(card, 0x0001, 2);
            put(card, CONSTANTS + highest, 3);
        }
        if (i < blanks)
            put(card, 0x0000, 2);
    }
}

/* Writes one row of a plot, with blanks in about `blanks` of 16 columns. */
static void put_row(struct random *random, struct any_card *card, const uint32_t *row, uint32_t arity, size_t blanks)
{
    put(card, row[0], 1);
    size_t map_at = card->length;
    put(card, 0, 1);
    for (uint32_t column = 0; column < arity; column++) {
        if (below(random, 16) < blanks)
            continue;
        card->bytes[map_at] |= (uint8_t)(1u << column);
        put(card, row[1 + column], 3);
    }
}

void make_card(struct random *random, const struct palette *palette, struct any_card *card)
{
    static struct any_plot plot;
    if (one_in(random, 16)) {
        make_blank_card(random, card);
        return;
    }
    make_plot(random, palette, &plot);
    size_t blanks = any_blanks(random, &plot);
    size_t used = plot.header[HEADER_USED];
    uint32_t rows = 0;
    start_card(card, used, 0);
    put(card, plot.header[HEADER_RELATIONS], 1);
    for (uint32_t relation = 0; relation < plot.header[HEADER_RELATIONS]; relation++)
        put(card, arity_of(plot.header, relation), 1);
    size_t rows_at = card->length;
    put(card, 0, 2);
    for (size_t at = 0; at < used; rows++) {
        uint32_t arity = arity_of(plot.header, plot.words[at]);
        put_row(random, card, plot.words + at, arity, blanks);
        at += 1 + arity;
    }
    put_number(card->bytes, &rows_at, rows, 2);
}

void make_huge_card(struct random *random, struct any_card *card)
{
    bool blank = one_in(random, 2);
    start_card(card, 2 * 65535, 0);
    put(card, 0x0101, 2);
    put(card, 65535, 2);
    for (size_t row = 0; row < 65535; row++) {
        put(card, 0, 1);
        put(card, blank ? 0 : 1, 1);
        if (!blank)
            put(card, below(random, CONSTANTS), 3);
    }
}

void damage_card(struct random *random, struct any_card *card)
{
    if (card->length == 0)
        return;
    /* The first bytes have rules of their own, and are few. */
    size_t front = card->length < 14 ? card->length : one_in(random, 4) ? 1 : 14;
    size_t index = below(random, one_in(random, 2) ? card->length : front);
    size_t added;
    switch (below(random, 6)) {
    case 0:
        card->length = index;
        break;
    case 1:
        card->length--;
        break;
    case 2:
        added = 1 + below(random, 3);
        put(card, below(random, 256), added);
        break;
    case 3:
        card->bytes[index] ^= (uint8_t)(1u << below(random, 8));
        break;
    default:
        card->bytes[index] = (uint8_t)odd_number(random, card->bytes[index]);
    }
}
