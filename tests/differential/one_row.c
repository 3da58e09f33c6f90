#include "one_row.h"

bool asks_one_row(const struct any_query *query)
{
    return query->length == NODE_WORDS && query->words[0] == ROW_STANDS;
}

/* The rows of the asked relation, beside the asked row. */
struct found {
    size_t rows;         /* of the relation */
    size_t identical;    /* how many of them are identical */
    size_t before;       /* how many of them come before the first identical one */
    bool others_between; /* a row of another relation comes after the first of them and before that one */
    size_t identical_at; /* the index of that one among the plot's words */
    size_t last_at;      /* the index of the last of them */
};

static bool is_identical(const uint32_t *cells, const uint32_t *terms, size_t arity, const struct any_cells *candidate)
{
    for (size_t i = 0; i < arity; i++)
        if (cells[i] != (terms[i] < FIRST_VARIABLE ? terms[i] : candidate->cells[terms[i] - FIRST_VARIABLE]))
            return false;
    return true;
}

static struct found find_rows(const struct any_plot *plot, const struct any_query *query,
                              const struct any_cells *candidate)
{
    struct found found = {0};
    uint32_t relation = query->words[1];
    uint32_t arity = arity_of(plot->header, relation);
    bool others = false;
    for (size_t at = 0; at < plot->header[HEADER_USED]; at += 1 + arity_of(plot->header, plot->words[at])) {
        if (plot->words[at] != relation) {
            others |= found.rows > 0;
            continue;
        }
        if (is_identical(plot->words + at + 1, query->words + 2, arity, candidate) && found.identical++ == 0) {
            found.before = found.rows;
            found.others_between = others;
            found.identical_at = at;
        }
        found.rows++;
        found.last_at = at;
    }
    return found;
}

/* Whether a row unifies that stands before an index of the plot's words, where no row is identical. */
static bool unifies_before(const struct any_plot *plot, size_t index, const struct any_query *query,
                           const struct any_cells *candidate)
{
    static uint32_t list[PLOT_ROOM];
    uint32_t header[HEADER_WORDS];
    uint32_t truth = TRUTH_FALSE;
    uint32_t cost;
    header_of_rows(header, plot->header[HEADER_RELATIONS], plot->header + HEADER_ARITIES, plot->words, index);
    ref_ask(header, HEADER_WORDS, plot->words, index, query->words, query->length, candidate->cells, candidate->length,
            list, PLOT_ROOM, UINT32_MAX, &truth, &cost);
    return truth == TRUTH_UNKNOWN;
}

void note_one_row(const struct any_plot *plot, const struct any_query *query, const struct any_cells *candidate,
                  uint32_t number, uint32_t budget)
{
    struct found found = find_rows(plot, query, candidate);
    if (found.rows < 2)
        return;
    if (found.identical > 0 && number == 46 && budget == 1 + found.before)
        note(BEYOND_BUDGET);
    if (number != 0)
        return;
    if (found.identical == 0) {
        if (unifies_before(plot, found.last_at, query, candidate))
            note(NO_IDENTICAL);
        return;
    }
    if (found.before == 0)
        note(IDENTICAL_FIRST);
    else
        note(found.before + 1 < found.rows ? IDENTICAL_BETWEEN : IDENTICAL_LAST);
    if (found.identical > 1)
        note(IDENTICAL_TWICE);
    if (found.others_between)
        note(OTHERS_BETWEEN);
    if (unifies_before(plot, found.identical_at, query, candidate))
        note(UNIFYING_BEFORE);
    if (budget < 1 + found.rows)
        note(BELOW_ALL_ROWS);
}
