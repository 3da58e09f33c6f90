/* Input bytes for the program. */
#include "support/input.h"
#include "generate.h"

/* Keeps two of the last four bytes, which are the budget if the fields fit, so that the query ends soon. */
static void cut_budget(struct any_input *input)
{
    if (input->length >= 4)
        input->bytes[input->length - 4] = input->bytes[input->length - 3] = 0;
}

/* Another card than the query was made for, or a damaged one; returns false if the card was left as it is. */
static bool change_card(struct random *random, const struct palette *palette, struct any_card *card)
{
    if (one_in(random, 15))
        make_card(random, palette, card);
    else if (one_in(random, 30))
        do
            make_card(random, palette, card);
        while (card->words <= MOST_WORDS);
    else if (one_in(random, 5))
        damage_card(random, card);
    else
        return false;
    return true;
}

static void make_fields(struct random *random, struct any_input *input)
{
    static struct any_card card;
    static struct any_query query;
    static struct any_plot plot = {.header_length = HEADER_WORDS, .length = MOST_WORDS};
    struct any_cells candidate;
    struct palette palette = make_palette(random);
    size_t log_used;
    do
        make_card(random, &palette, &card);
    while (ref_decode(card.bytes, card.length, plot.header, HEADER_WORDS, plot.words, MOST_WORDS, &log_used) != 0);
    make_candidate(random, &palette, &candidate);
    make_query(random, &palette, plot.header, count_values(&plot), candidate.length, &query);
    if (one_in(random, 3))
        damage_query(random, &query);
    if (one_in(random, 12))
        damage_candidate(random, &candidate);
    uint32_t budget = any_budget(random, &plot, &query, &candidate, 20000);
    bool changed = change_card(random, &palette, &card);
    const struct input fields = {card.bytes,      card.length,      query.words, query.length,
                                 candidate.cells, candidate.length, budget};
    input->length = write_input(&fields, input->bytes);
    if (changed)
        cut_budget(input);
}

/* Fields that fit together in exactly 16,384 bytes; a query of as many words is refused 21. */
static void make_longest_fields(struct random *random, struct any_input *input)
{
    static struct any_card card;
    static uint32_t words[MOST_INPUT / 4];
    struct any_cells candidate;
    struct palette palette = make_palette(random);
    make_card(random, &palette, &card);
    make_candidate(random, &palette, &candidate);
    candidate.length = 0;
    while ((MOST_INPUT - (card.length + 3 * candidate.length + 9)) % 4 != 0)
        candidate.length++;
    size_t word_count = (MOST_INPUT - (card.length + 3 * candidate.length + 9)) / 4;
    for (size_t i = 0; i < word_count; i++)
        words[i] = below(random, 8);
    const struct input fields = {card.bytes, card.length, words, word_count, candidate.cells, candidate.length, 100};
    input->length = write_input(&fields, input->bytes);
}

static void damage_input(struct random *random, struct any_input *input)
{
    size_t index = below(random, input->length);
    size_t length = input->length;
    switch (below(random, 8)) {
    case 0:
        length = index;
        break;
    case 1:
        length -= 1;
        break;
    case 2:
        length += 1 + below(random, 4);
        break;
    case 3:
        length = MOST_INPUT;
        break;
    case 4:
        length = MOST_INPUT + 1;
        break;
    case 5:
        length = MOST_INPUT + 1 + below(random, INPUT_ROOM - MOST_INPUT);
        break;
    default:
        input->bytes[index] = (uint8_t)odd_number(random, input->bytes[index]);
    }
    for (size_t i = input->length; i < length; i++)
        input->bytes[i] = (uint8_t)below(random, 256);
    input->length = length;
    cut_budget(input);
}

void make_input(struct random *random, struct any_input *input)
{
    if (one_in(random, 30))
        make_longest_fields(random, input);
    else
        make_fields(random, input);
    if (one_in(random, 4))
        damage_input(random, input);
}
