#include "calls.h"

#include <string.h>

struct any_plot *plot_to_lend(struct random *random, struct any_plot *plot)
{
    static struct any_plot copy;
    if (!one_in(random, 12))
        return plot;
    copy = *plot;
    damage_plot(random, &copy);
    return &copy;
}

/* The cases of words that have to fit into 4,096 words and into a slice. */
struct room_cases {
    enum named_case full, over_by_one, fits_slice, over_slice_by_one;
};

static void note_room(const struct room_cases *cases, uint32_t number, size_t needed, size_t length)
{
    if (number == 0 && needed == MOST_WORDS)
        note(cases->full);
    if (number == 42 && needed == MOST_WORDS + 1 && length > MOST_WORDS)
        note(cases->over_by_one);
    if (number == 0 && needed == length)
        note(cases->fits_slice);
    if (number == 42 && needed == length + 1)
        note(cases->over_slice_by_one);
}

static void note_card(const struct any_card *card, const struct any_plot *plot, uint32_t number)
{
    static const struct room_cases cases = {CARD_OF_4096_WORDS, CARD_OVER_BY_ONE, CARD_FITS_SLICE,
                                            CARD_OVER_SLICE_BY_ONE};
    note_room(&cases, number, card->words, plot->length);
    if (number != 0 && card->words == 2 * 65535)
        note(CARD_OF_65535_ROWS);
    if (number == 0 && card->last_blank == NULLS)
        note(BLANK_GETS_NULL_200);
    if (number == 17 && card->last_blank == NULLS + 1)
        note(BLANK_NEEDS_NULL_201);
}

void try_decode(struct random *random, const struct palette *palette, struct any_plot *plot, struct any_log *log)
{
    static const size_t wrong_lengths[] = {HEADER_COUNTS, HEADER_WORDS - 1, HEADER_WORDS + 1};
    static struct any_card card;
    static struct any_plot old;
    old = *plot;
    if (one_in(random, 300))
        make_huge_card(random, &card);
    else
        make_card(random, palette, &card);
    size_t needed = card.words < PLOT_ROOM ? card.words : PLOT_ROOM;
    bool damaged = one_in(random, 2);
    for (size_t damages = damaged ? 1 + one_in(random, 5) : 0; damages > 0; damages--)
        damage_card(random, &card);
    plot->header_length = one_in(random, 40) ? wrong_lengths[below(random, 3)] : HEADER_WORDS;
    switch (below(random, 6)) {
    case 0:
        plot->length = needed;
        break;
    case 1:
        plot->length = needed > 0 ? needed - 1 : 0;
        break;
    case 2:
        plot->length = below(random, PLOT_ROOM);
        break;
    default:
        plot->length = MOST_WORDS + below(random, 3);
    }
    bool fresh = log->used == 0;
    bool miscounted = one_in(random, 3);
    if (miscounted)
        miscount_rows(random, plot);
    uint32_t number = both_decode(plot, &card, &log->used);
    if (!damaged)
        note_card(&card, plot, number);
    if (number == 0 && !fresh)
        note(FRESH_BY_DECODE);
    if (number == 0 && miscounted)
        note(DECODED_OVER_MISCOUNT);
    if (number != 0)
        *plot = old;
}

void try_insert(struct random *random, const struct palette *palette, struct any_plot *plot)
{
    static const struct room_cases cases = {ROW_ENDS_AT_4096, ROW_OVER_BY_ONE, ROW_FITS_SLICE, ROW_OVER_SLICE_BY_ONE};
    struct any_plot *lent = plot_to_lend(random, plot);
    struct any_cells cells;
    uint32_t relation = below(random, MOST_RELATIONS) % plot->header[HEADER_RELATIONS];
    make_candidate(random, palette, &cells);
    cells.length = arity_of(plot->header, relation);
    size_t needed = plot->header[HEADER_USED] + 1 + cells.length;
    size_t length = lent->length;
    if (lent == plot && needed < PLOT_ROOM && one_in(random, 2))
        plot->length = needed - one_in(random, 3);
    else if (lent == plot && needed < PLOT_ROOM && one_in(random, 2))
        plot->length = needed + below(random, PLOT_ROOM - needed);
    if (one_in(random, 12))
        relation = odd_number(random, relation);
    if (one_in(random, 12))
        damage_candidate(random, &cells);
    if (one_in(random, 24))
        cells.length = below(random, 8);
    uint32_t number = both_insert(lent, relation, &cells);
    note_room(&cases, number, needed, lent->length);
    if (lent == plot && plot->length < length)
        plot->length = length;
}

uint32_t null_to_replace(struct random *random, const struct palette *palette, const struct any_plot *plot)
{
    size_t used = plot->header[HEADER_USED];
    if (used > 0 && !one_in(random, 6)) {
        size_t start = below(random, used);
        for (size_t i = 0; i < used; i++) {
            uint32_t word = plot->words[(start + i) % used];
            if (word > CONSTANTS && word <= CONSTANTS + NULLS)
                return word - CONSTANTS;
        }
    }
    return one_in(random, 3) ? odd_number(random, 0) : any_null(random, palette);
}

uint32_t any_replacement(struct random *random, const struct palette *palette, uint32_t null)
{
    uint32_t cell = any_cell(random, palette);
    if (one_in(random, 8))
        cell = one_in(random, 2) ? odd_number(random, cell) : CONSTANTS + null;
    return cell;
}

void try_substitute(struct random *random, const struct palette *palette, struct any_plot *plot)
{
    uint32_t count;
    uint32_t null = null_to_replace(random, palette, plot);
    uint32_t cell = any_replacement(random, palette, null);
    if (both_substitute(plot_to_lend(random, plot), null, cell, &count) != 0)
        return;
    if (null == NULLS)
        note(NULL_200_REPLACED);
    if (cell == CONSTANTS + null)
        note(REPLACED_BY_ITSELF);
    else if (cell > CONSTANTS)
        note(REPLACED_BY_ANOTHER_NULL);
}

void try_null_counts(struct random *random, struct any_plot *plot)
{
    static const size_t lengths[] = {NULLS, NULLS, NULLS + 1, NULLS + 17, NULLS - 1, 0};
    uint32_t output[NULLS + 17];
    size_t length = lengths[below(random, 6)];
    for (size_t i = 0; i < NULLS + 17; i++)
        output[i] = (uint32_t)random_bits(random);
    if (both_null_counts(plot_to_lend(random, plot), output, length) == 44 && length == NULLS - 1)
        note(COUNTS_OF_199);
}

/* A card just encoded decodes to the same header and words. */
static void decode_again(const struct any_plot *plot, const struct any_card *card)
{
    static struct any_plot other;
    size_t log_used = 1;
    other = *plot;
    memset(other.header, 0xff, sizeof other.header);
    memset(other.words, 0xff, sizeof other.words);
    other.length = plot->header[HEADER_USED];
    if (both_decode(&other, card, &log_used) != 0)
        fail("an encoded card is refused");
    if (memcmp(other.header, plot->header, HEADER_WORDS * sizeof *other.header) != 0 ||
        memcmp(other.words, plot->words, plot->header[HEADER_USED] * sizeof *other.words) != 0)
        fail("an encoded card decodes to another plot");
    note(CARD_DECODED_AGAIN);
}

void try_encode(struct random *random, struct any_plot *plot)
{
    static struct any_card card;
    struct any_plot *lent = plot_to_lend(random, plot);
    uint32_t count;
    uint32_t needed = 3;
    ref_encode(plot->header, plot->header_length, plot->words, plot->length, card.bytes, CARD_ROOM, &needed);
    for (size_t i = 0; i < 64; i++)
        card.bytes[i] = (uint8_t)random_bits(random);
    switch (below(random, 4)) {
    case 0:
        card.length = needed - 1;
        break;
    case 1:
        card.length = one_in(random, 4) ? 0 : needed + below(random, 100);
        break;
    default:
        card.length = needed;
    }
    uint32_t number = both_encode(lent, &card, &count);
    if (number == 0 && card.length == needed)
        note(OUTPUT_FITS);
    if (number == 44 && card.length + 1 == needed)
        note(OUTPUT_SHORT_BY_ONE);
    if (number == 0) {
        card.length = count;
        decode_again(lent, &card);
    }
}

void try_call_between(struct random *random, const struct palette *palette, struct any_plot *plot)
{
    switch (below(random, 8)) {
    case 0:
        try_null_counts(random, plot);
        break;
    case 1:
        try_encode(random, plot);
        break;
    case 2:
        try_ask(random, palette, plot);
        break;
    default:
        break;
    }
}
