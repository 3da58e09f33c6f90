/* Decode and encode. */
#include "plot.h"
#include "support/bytes.h"

static struct plot plot;

/* Stands for a blank until its null is known; no cell. */
#define BLANK UINT32_MAX

static uint32_t read_row(struct bytes *card, struct row *row)
{
    uint32_t map;
    if (!take_number(card, 1, &row->relation))
        return 11;
    if (row->relation >= plot.relations)
        return 14;
    if (!take_number(card, 1, &map))
        return 11;
    if (map >= 1u << plot.arities[row->relation])
        return 15;
    for (uint32_t column = 0; column < plot.arities[row->relation]; column++) {
        row->cells[column] = BLANK;
        if ((map >> column & 1) == 0)
            continue;
        if (!take_number(card, 3, &row->cells[column]))
            return 11;
        if (!is_cell(row->cells[column]))
            return 16;
    }
    return 0;
}

/* Tests the rules byte by byte, then 18. */
static uint32_t read_rows(struct bytes *card)
{
    if (!take_number(card, 1, &plot.relations))
        return 11;
    if (plot.relations < 1 || plot.relations > MOST_RELATIONS)
        return 12;
    for (uint32_t relation = 0; relation < MOST_RELATIONS; relation++)
        plot.arities[relation] = 0;
    for (uint32_t relation = 0; relation < plot.relations; relation++) {
        if (!take_number(card, 1, &plot.arities[relation]))
            return 11;
        if (plot.arities[relation] < 1 || plot.arities[relation] > MOST_COLUMNS)
            return 13;
    }
    uint32_t row_count;
    if (!take_number(card, 2, &row_count))
        return 11;
    plot.row_count = row_count;
    for (size_t i = 0; i < plot.row_count; i++) {
        uint32_t refusal = read_row(card, &plot.rows[i]);
        if (refusal != 0)
            return refusal;
    }
    return card->at < card->length ? 18 : 0;
}

/* "Blanks get M + 1, M + 2 and so on in card order." */
static uint32_t number_blanks(void)
{
    uint32_t null = 0;
    for (size_t i = 0; i < plot.row_count; i++) {
        const struct row *row = &plot.rows[i];
        for (uint32_t column = 0; column < plot.arities[row->relation]; column++)
            if (row->cells[column] != BLANK && null_of(row->cells[column]) > null)
                null = null_of(row->cells[column]);
    }
    for (size_t i = 0; i < plot.row_count; i++) {
        struct row *row = &plot.rows[i];
        for (uint32_t column = 0; column < plot.arities[row->relation]; column++) {
            if (row->cells[column] != BLANK)
                continue;
            if (++null > NULLS)
                return 17;
            row->cells[column] = CONSTANTS + null;
        }
    }
    return 0;
}

uint32_t ref_decode(const uint8_t *card, size_t card_length, uint32_t *header, size_t header_length, uint32_t *words,
                    size_t length, size_t *log_used)
{
    struct bytes bytes = {card, card_length, 0};
    if (header_length != HEADER_WORDS)
        return 41;
    uint32_t refusal = read_rows(&bytes);
    if (refusal == 0)
        refusal = number_blanks();
    if (refusal == 0)
        refusal = plot_store(&plot, header, words, length);
    if (refusal == 0)
        *log_used = 0;
    return refusal;
}

uint32_t ref_encode(const uint32_t *header, size_t header_length, const uint32_t *words, size_t length, uint8_t *card,
                    size_t card_length, uint32_t *count)
{
    if (plot_take_apart(&plot, header, header_length, words, length) != 0)
        return 41;
    size_t needed = 1 + plot.relations + 2 + 2 * plot.row_count + 3 * plot_cells(&plot);
    size_t at = 0;
    if (card_length < needed)
        return 44;
    put_number(card, &at, plot.relations, 1);
    for (uint32_t relation = 0; relation < plot.relations; relation++)
        put_number(card, &at, plot.arities[relation], 1);
    put_number(card, &at, (uint32_t)plot.row_count, 2);
    for (size_t i = 0; i < plot.row_count; i++) {
        const struct row *row = &plot.rows[i];
        uint32_t arity = plot.arities[row->relation];
        put_number(card, &at, row->relation, 1);
        put_number(card, &at, (1u << arity) - 1, 1);
        for (uint32_t column = 0; column < arity; column++)
            put_number(card, &at, row->cells[column], 3);
    }
    *count = (uint32_t)at;
    return 0;
}
