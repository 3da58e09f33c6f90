/* Insert, substitute and null counts. */
#include "plot.h"

static struct plot plot;

uint32_t ref_insert(uint32_t *header, size_t header_length, uint32_t *words, size_t length, uint32_t relation,
                    const uint32_t *cells, size_t cell_count)
{
    if (plot_take_apart(&plot, header, header_length, words, length) != 0)
        return 41;
    if (relation >= plot.relations)
        return 14;
    if (cell_count != plot.arities[relation])
        return 27;
    struct row *row = &plot.rows[plot.row_count];
    row->relation = relation;
    for (size_t column = 0; column < cell_count; column++) {
        if (!is_cell(cells[column]))
            return 16;
        row->cells[column] = cells[column];
    }
    plot.row_count++;
    return plot_store(&plot, header, words, length);
}

uint32_t ref_substitute(const uint32_t *header, size_t header_length, uint32_t *words, size_t length, uint32_t null,
                        uint32_t cell, uint32_t *count)
{
    if (plot_take_apart(&plot, header, header_length, words, length) != 0)
        return 41;
    if (null < 1 || null > NULLS)
        return 29;
    if (!is_cell(cell))
        return 16;
    uint32_t replaced = 0;
    for (size_t i = 0; i < plot.row_count; i++) {
        struct row *row = &plot.rows[i];
        for (uint32_t column = 0; column < plot.arities[row->relation]; column++) {
            if (null_of(row->cells[column]) == null) {
                row->cells[column] = cell;
                replaced++;
            }
        }
    }
    if (replaced == 0)
        return 43;
    plot_write_rows(&plot, words);
    *count = replaced;
    return 0;
}

uint32_t ref_null_counts(const uint32_t *header, size_t header_length, const uint32_t *words, size_t length,
                         uint32_t *counts, size_t counts_length, uint32_t *count)
{
    if (plot_take_apart(&plot, header, header_length, words, length) != 0)
        return 41;
    if (counts_length < NULLS)
        return 44;
    for (uint32_t null = 1; null <= NULLS; null++)
        counts[null - 1] = 0;
    for (size_t i = 0; i < plot.row_count; i++) {
        const struct row *row = &plot.rows[i];
        for (uint32_t column = 0; column < plot.arities[row->relation]; column++) {
            uint32_t null = null_of(row->cells[column]);
            if (null != 0)
                counts[null - 1]++;
        }
    }
    *count = NULLS;
    return 0;
}
