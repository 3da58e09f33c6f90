#include "small.h"

enum {
    MOST_SMALL_RELATIONS = 3,
    MOST_SMALL_COLUMNS = 3,
    MOST_SMALL_ROWS = 5,
    MOST_SMALL_NODES = 12,
    SMALL_CONSTANTS = 3
};

static struct palette small_palette(struct random *random)
{
    static const uint32_t constants[] = {0, 1, 2, 7, 201, CONSTANTS - 1};
    static const uint32_t nulls[] = {1, 2, NULLS};
    struct palette palette = {.constant_count = below(random, 1 + SMALL_CONSTANTS)};
    palette.null_count = one_in(random, 10) ? 0 : 1 + below(random, COMPLETED_NULLS);
    if (palette.constant_count + palette.null_count == 0)
        palette.constant_count = 1;
    for (size_t i = 0; i < palette.constant_count; i++)
        palette.constants[i] = constants[below(random, sizeof constants / sizeof *constants)];
    for (size_t i = 0; i < palette.null_count; i++)
        palette.nulls[i] = nulls[below(random, sizeof nulls / sizeof *nulls)];
    return palette;
}

static void make_small_plot(struct random *random, const struct palette *palette, struct any_plot *plot)
{
    uint32_t arities[MOST_SMALL_RELATIONS];
    uint32_t relations = 1 + below(random, MOST_SMALL_RELATIONS);
    for (uint32_t relation = 0; relation < relations; relation++)
        arities[relation] = 1 + below(random, MOST_SMALL_COLUMNS);
    header_start(plot->header, relations, arities);
    for (size_t rows = below(random, 1 + MOST_SMALL_ROWS); rows > 0; rows--) {
        uint32_t *words = plot->words + plot->header[HEADER_USED];
        words[0] = below(random, relations);
        for (uint32_t column = 1; column <= arities[words[0]]; column++)
            words[column] = any_cell(random, palette);
        header_add_row(plot->header, words[0]);
    }
    plot->header_length = HEADER_WORDS;
    plot->length = plot->header[HEADER_USED];
}

static void make_small_candidate(struct random *random, const struct palette *palette, struct any_cells *candidate)
{
    candidate->length = below(random, 1 + MOST_SMALL_COLUMNS);
    for (size_t i = 0; i < candidate->length; i++)
        candidate->cells[i] = any_cell(random, palette);
}

bool has_kind(const struct any_query *query, enum kind kind)
{
    for (size_t at = 0; at < query->length; at += NODE_WORDS)
        if (query->words[at] == kind)
            return true;
    return false;
}

bool is_plain(const struct any_query *query)
{
    return !has_kind(query, NOT) && !has_kind(query, EVERY);
}

/*
 * A variable that no quantifier binds and that is no cell of the candidate, so that no term is one. A query of many
 * nodes may leave none of these; then the variable returned hides another of its number.
 */
static uint32_t unused_variable(const struct any_query *query)
{
    bool bound[VARIABLES] = {false};
    uint32_t variable = VARIABLES - 1;
    for (size_t at = 0; at < query->length; at += NODE_WORDS)
        if (query->words[at] == SOME || query->words[at] == EVERY)
            bound[query->words[at + 1]] = true;
    while (variable > 0 && bound[variable])
        variable--;
    return variable;
}

/* For a "not" it puts a "some" that binds a variable in vain: the tree keeps its shape. */
void make_plain(struct any_query *query)
{
    uint32_t variable = unused_variable(query);
    for (size_t at = 0; at < query->length; at += NODE_WORDS) {
        uint32_t *words = query->words + at;
        if (words[0] == NOT) {
            words[2] = words[1];
            words[1] = variable;
        }
        if (words[0] == NOT || words[0] == EVERY)
            words[0] = SOME;
    }
}

void make_small(struct random *random, struct asked *asked)
{
    struct palette palette = small_palette(random);
    make_small_plot(random, &palette, &asked->plot);
    make_small_candidate(random, &palette, &asked->candidate);
    do
        make_query(random, &palette, asked->plot.header, count_values(&asked->plot), asked->candidate.length,
                   &asked->query);
    while (asked->query.length > MOST_SMALL_NODES * NODE_WORDS);
    if (below(random, 5) < 2) /* some others are plain already */
        make_plain(&asked->query);
}
