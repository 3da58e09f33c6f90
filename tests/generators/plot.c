/* Plots. */
#include "generate.h"

#include <string.h>

static void make_empty_plot(struct random *random, struct any_plot *plot)
{
    uint32_t arities[MOST_RELATIONS];
    size_t most_relations = one_in(random, 4) ? MOST_RELATIONS : 3;
    uint32_t relations = 1 + below(random, most_relations);
    for (size_t relation = 0; relation < relations; relation++)
        arities[relation] = 1 + below(random, one_in(random, 3) ? MOST_COLUMNS : 3);
    header_start(plot->header, relations, arities);
    plot->header_length = HEADER_WORDS;
}

/* The words that a plot's rows may take. */
static size_t any_size(struct random *random)
{
    switch (below(random, 40)) {
    case 0:
        return MOST_WORDS - below(random, 4);
    case 1:
        return one_in(random, 2) ? MOST_WORDS : MOST_WORDS + 1 + one_in(random, 4);
    case 2:
        return below(random, MOST_WORDS);
    case 3:
    case 4:
    case 5:
        return 0;
    case 6:
    case 7:
    case 8:
    case 9:
        return below(random, 150);
    default:
        return below(random, 30);
    }
}

/* A relation whose row fits into the room, or MOST_RELATIONS if several tries find none. */
static uint32_t fitting_relation(struct random *random, const uint32_t *header, size_t room)
{
    for (size_t tries = 0; tries < 12; tries++) {
        uint32_t relation = below(random, header[HEADER_RELATIONS]);
        if (1 + arity_of(header, relation) <= room)
            return relation;
    }
    return MOST_RELATIONS;
}

/* The arity of the row at an index of a plot's words. */
static uint32_t arity_at(const struct any_plot *plot, size_t at)
{
    return arity_of(plot->header, plot->words[at]);
}

/* Appends a row to the words in use; one in six equals the row before it, if that is of the same relation. */
static void add_row(struct random *random, const struct palette *palette, struct any_plot *plot, uint32_t relation,
                    size_t last_row)
{
    size_t used = plot->header[HEADER_USED];
    bool again = used > 0 && plot->words[last_row] == relation && one_in(random, 6);
    plot->words[used] = relation;
    for (size_t i = 1; i <= arity_of(plot->header, relation); i++)
        plot->words[used + i] = again ? plot->words[last_row + i] : any_cell(random, palette);
    header_add_row(plot->header, relation);
}

uint32_t bucket_of(uint32_t cell)
{
    return cell * 2654435761u >> 22;
}

/* Gives every cell a constant of its own: at even steps, or out of one bucket, which has fewer than 1,000 constants. */
static void spread_constants(struct random *random, struct any_plot *plot)
{
    bool one_bucket = one_in(random, 3);
    uint32_t step = one_bucket ? 1 : 1 + below(random, 240);
    uint32_t constant = below(random, one_in(random, 2) ? MOST_RELATIONS : 1000);
    uint32_t bucket = bucket_of(constant);
    for (size_t at = 0; at < plot->header[HEADER_USED]; at += 1 + arity_at(plot, at))
        for (size_t column = 1; column <= arity_at(plot, at); column++) {
            plot->words[at + column] = constant;
            do
                constant = (constant + step) % CONSTANTS;
            while (one_bucket && bucket_of(constant) != bucket);
        }
}

void make_plot(struct random *random, const struct palette *palette, struct any_plot *plot)
{
    static const size_t slacks[] = {0, 0, 1, 5, 7, 50};
    size_t size = any_size(random);
    size_t used = 0;
    size_t last_row = 0;
    make_empty_plot(random, plot);
    for (;;) {
        uint32_t relation = fitting_relation(random, plot->header, size - used);
        if (relation == MOST_RELATIONS)
            break;
        add_row(random, palette, plot, relation, last_row);
        last_row = used;
        used = plot->header[HEADER_USED];
    }
    if (one_in(random, used > 1000 ? 2 : 15))
        spread_constants(random, plot);
    plot->length = used + slacks[below(random, 6)];
    if (one_in(random, 8) && used <= MOST_WORDS)
        plot->length = MOST_WORDS + below(random, 2);
    for (size_t i = used; i < plot->length; i++)
        plot->words[i] = odd_number(random, 0);
}

void count_relation_rows(const struct any_plot *plot, uint32_t rows[MOST_RELATIONS])
{
    size_t used = plot->header[HEADER_USED] < plot->length ? plot->header[HEADER_USED] : plot->length;
    memset(rows, 0, MOST_RELATIONS * sizeof *rows);
    for (size_t at = 0; at < used && plot->words[at] < MOST_RELATIONS; at += (size_t)1 + arity_at(plot, at))
        rows[plot->words[at]]++;
}

void miscount_rows(struct random *random, struct any_plot *plot)
{
    uint32_t *counts = plot->header + HEADER_COUNTS;
    uint32_t step = one_in(random, 2) ? 1 : (uint32_t)-1;
    uint32_t relation = below(random, one_in(random, 3) ? MOST_RELATIONS : plot->header[HEADER_RELATIONS]);
    counts[relation] += step;
    if (one_in(random, 3))
        counts[(relation + 1 + below(random, MOST_RELATIONS - 1)) % MOST_RELATIONS] -= step;
}

/* Damages the words, or the header but for its counts. */
static void damage_rows(struct random *random, struct any_plot *plot)
{
    size_t used = plot->header[HEADER_USED];
    size_t index = below(random, HEADER_COUNTS);
    switch (below(random, 6)) {
    case 0:
        plot->header[index] = odd_number(random, plot->header[index]);
        break;
    case 1: /* words in use that the slice lacks */
        if (used > 0)
            plot->length = one_in(random, 3) ? below(random, used) : used - 1;
        break;
    case 2: /* the last row cut short, or a row begun in the words after it */
        plot->header[HEADER_USED] += one_in(random, 2) ? 1 : (uint32_t)-1;
        break;
    default:
        if (used > 0) {
            index = below(random, used);
            plot->words[index] = odd_number(random, plot->words[index]);
        }
    }
}

void damage_plot(struct random *random, struct any_plot *plot)
{
    static const size_t lengths[] = {0, HEADER_COUNTS, HEADER_WORDS - 1, HEADER_WORDS + 1};
    size_t index = HEADER_COUNTS + below(random, MOST_RELATIONS);
    switch (below(random, 9)) {
    case 0:
        plot->header_length = lengths[below(random, 4)];
        break;
    case 1:
        plot->header[index] = odd_number(random, plot->header[index]);
        break;
    case 2:
    case 3:
        miscount_rows(random, plot);
        break;
    default:
        damage_rows(random, plot);
        if (one_in(random, 2)) /* else a test of the counts alone would refuse nearly all of these */
            count_relation_rows(plot, plot->header + HEADER_COUNTS);
    }
}

size_t count_cells(const struct any_plot *plot)
{
    size_t cells = 0;
    for (size_t at = 0; at < plot->header[HEADER_USED]; at += 1 + arity_at(plot, at))
        cells += arity_at(plot, at);
    return cells;
}

size_t first_places(const struct any_plot *plot, size_t places[PLOT_ROOM])
{
    static bool seen[CONSTANTS + NULLS + 1];
    size_t count = 0;
    for (size_t at = 0; at < plot->header[HEADER_USED]; at += 1 + arity_at(plot, at))
        for (size_t column = 1; column <= arity_at(plot, at); column++) {
            uint32_t cell = plot->words[at + column];
            if (!seen[cell])
                places[count++] = at + column;
            seen[cell] = true;
        }
    for (size_t i = 0; i < count; i++)
        seen[plot->words[places[i]]] = false;
    return count;
}

size_t count_values(const struct any_plot *plot)
{
    static size_t places[PLOT_ROOM];
    return first_places(plot, places);
}
