#include "plot.h"

bool is_constant(uint32_t cell)
{
    return cell < CONSTANTS;
}

bool is_cell(uint32_t number)
{
    return is_constant(number) || (number > CONSTANTS && number <= CONSTANTS + NULLS);
}

uint32_t null_of(uint32_t cell)
{
    return is_constant(cell) ? 0 : cell - CONSTANTS;
}

static bool header_is_sound(const uint32_t *header)
{
    uint32_t relations = header[HEADER_RELATIONS];
    if (relations < 1 || relations > MOST_RELATIONS)
        return false;
    for (uint32_t relation = 0; relation < MOST_RELATIONS; relation++) {
        uint32_t arity = arity_of(header, relation);
        if (relation < relations && (arity < 1 || arity > MOST_COLUMNS))
            return false;
        if (relation >= relations && arity != 0)
            return false;
    }
    return header[HEADER_USED] <= MOST_WORDS;
}

/* Whether each count equals the rows that stand. In a relation that does not exist none stands, so its count is 0. */
static bool counts_are_right(const struct plot *plot, const uint32_t *header)
{
    uint32_t rows[MOST_RELATIONS] = {0};
    for (size_t i = 0; i < plot->row_count; i++)
        rows[plot->rows[i].relation]++;
    for (uint32_t relation = 0; relation < MOST_RELATIONS; relation++)
        if (count_of(header, relation) != rows[relation])
            return false;
    return true;
}

uint32_t plot_take_apart(struct plot *plot, const uint32_t *header, size_t header_length, const uint32_t *words,
                         size_t length)
{
    if (header_length != HEADER_WORDS || !header_is_sound(header) || length < header[HEADER_USED])
        return 41;
    plot->relations = header[HEADER_RELATIONS];
    for (uint32_t relation = 0; relation < MOST_RELATIONS; relation++)
        plot->arities[relation] = arity_of(header, relation);
    plot->row_count = 0;
    size_t at = 0;
    while (at < header[HEADER_USED]) {
        struct row *row = &plot->rows[plot->row_count++];
        row->relation = words[at++];
        if (row->relation >= plot->relations)
            return 41;
        for (uint32_t column = 0; column < plot->arities[row->relation]; column++) {
            if (at == header[HEADER_USED] || !is_cell(words[at]))
                return 41;
            row->cells[column] = words[at++];
        }
    }
    return counts_are_right(plot, header) ? 0 : 41;
}

size_t plot_cells(const struct plot *plot)
{
    size_t cells = 0;
    for (size_t i = 0; i < plot->row_count; i++)
        cells += plot->arities[plot->rows[i].relation];
    return cells;
}

size_t plot_words(const struct plot *plot)
{
    return plot->row_count + plot_cells(plot);
}

size_t list_once(uint32_t *list, size_t count, uint32_t value)
{
    for (size_t i = 0; i < count; i++)
        if (list[i] == value)
            return count;
    list[count] = value;
    return count + 1;
}

size_t plot_values(const struct plot *plot, uint32_t *list)
{
    size_t count = 0;
    for (size_t i = 0; i < plot->row_count; i++) {
        const struct row *row = &plot->rows[i];
        for (uint32_t column = 0; column < plot->arities[row->relation]; column++)
            count = list_once(list, count, row->cells[column]);
    }
    return count;
}

void plot_write_rows(const struct plot *plot, uint32_t *words)
{
    for (size_t i = 0; i < plot->row_count; i++) {
        const struct row *row = &plot->rows[i];
        *words++ = row->relation;
        for (uint32_t column = 0; column < plot->arities[row->relation]; column++)
            *words++ = row->cells[column];
    }
}

uint32_t plot_store(const struct plot *plot, uint32_t *header, uint32_t *words, size_t length)
{
    if (plot_words(plot) > MOST_WORDS || plot_words(plot) > length)
        return 42;
    plot_write_rows(plot, words);
    header_start(header, plot->relations, plot->arities);
    for (size_t i = 0; i < plot->row_count; i++)
        header_add_row(header, plot->rows[i].relation);
    return 0;
}
