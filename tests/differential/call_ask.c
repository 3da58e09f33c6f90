#include "all_values.h"
#include "calls.h"
#include "named.h"
#include "one_row.h"

/* The highest cost that the reference is asked to find. */
enum { MOST_FORESEEN = 200000 };

static size_t any_list_length(struct random *random, size_t cells, size_t need)
{
    switch (below(random, 12)) {
    case 0:
        return need > 0 ? need - 1 : 0;
    case 1:
        return MOST_WORDS;
    case 2:
        return below(random, need + 1);
    case 3:
        return cells;
    case 4:
    case 5:
        return need + 1 + below(random, 10);
    default:
        return need;
    }
}

struct asked {
    uint32_t number;
    uint32_t cost;
    uint32_t budget;
    size_t query_length;
    size_t candidate_length;
    size_t list_length;
};

/* Notes a list that is too short for the need, of which a plot of this many cells is a part. */
static void note_short(const struct any_plot *plot, const struct any_query *query, size_t length, size_t cells,
                       size_t need)
{
    static uint32_t range[PLOT_ROOM];
    if (length + 1 == need)
        note(cells < need ? LIST_SHORT_BY_A_TERM : LIST_SHORT_BY_A_CELL);
    if (length == cells)
        note(LIST_OF_CELLS_ALONE);
    if (length >= range_of(plot, query, range))
        note(LIST_OF_RANGE_ALONE);
}

static void note_asked(const struct any_plot *plot, const struct asked *asked, size_t cells, size_t need,
                       uint32_t foreseen)
{
    if (asked->number == 21 && asked->query_length == (MOST_NODES + 1) * NODE_WORDS)
        note(QUERY_OF_808_WORDS);
    if (asked->number == 46 && foreseen - 1 == asked->budget)
        note(COST_OVER_BY_ONE);
    if (asked->number != 0)
        return;
    if (plot->header[HEADER_USED] == 0)
        note(NO_ROWS_ASKED);
    if (plot->header[HEADER_USED] == MOST_WORDS)
        note(FULL_PLOT_ASKED);
    if (count_values(plot) >= 2000)
        note(MANY_VALUES_LISTED);
    if (asked->query_length == MOST_NODES * NODE_WORDS)
        note(HUNDRED_NODES);
    if (asked->candidate_length == MOST_COLUMNS)
        note(CANDIDATE_OF_SIX);
    if (asked->list_length == need)
        note(cells < need ? LIST_FITS_WITH_TERMS : LIST_FITS);
    if (asked->cost == asked->budget)
        note(COST_IS_BUDGET);
    if (asked->budget == UINT32_MAX)
        note(LARGEST_BUDGET);
}

void try_ask(struct random *random, const struct palette *palette, struct any_plot *plot)
{
    static struct any_query query;
    struct any_cells candidate;
    struct asked asked;
    uint32_t truth;
    uint32_t foreseen = 0;
    size_t cells = count_cells(plot);
    bool endless = count_values(plot) >= 8 && one_in(random, 10);
    make_candidate(random, palette, &candidate);
    if (endless)
        make_endless_query(random, &query);
    else
        make_any_query(random, palette, plot, &candidate, &query);
    if (!endless && one_in(random, 3))
        for (size_t damages = 1 + one_in(random, 5); damages > 0; damages--)
            damage_query(random, &query);
    if (one_in(random, 15))
        damage_candidate(random, &candidate);
    struct any_plot *lent = plot_to_lend(random, plot);
    asked.query_length = query.length;
    asked.candidate_length = candidate.length;
    size_t need = list_need(plot, &query);
    asked.list_length = any_list_length(random, cells, need);
    enum value_query value_query = value_query_of(&query);
    uint32_t most = value_query != NO_VALUE_QUERY ? MOST_WORDS : one_in(random, 300) ? MOST_FORESEEN : 3000;
    asked.budget = any_budget(random, lent, &query, &candidate, most);
    asked.number = both_ask(lent, &query, &candidate, asked.list_length, asked.budget, &truth, &asked.cost);
    if (asked.number == 46 && asked.budget < MOST_FORESEEN)
        foresee(lent, &query, &candidate, asked.budget + 1, &foreseen);
    if (asked.number == 46 && endless && lent == plot)
        note(COST_OVER_32_BITS);
    note_asked(lent, &asked, cells, need, foreseen);
    if (asked.number == 45)
        note_short(lent, &query, asked.list_length, cells, need);
    if (asked.number == 0 || asked.number == 46) {
        note_named(lent, &query, asked.number);
        ask_unnamed(lent, &query, &candidate, &(struct outcome){asked.budget, asked.number, truth, asked.cost});
    }
    if (asks_one_row(&query) && (asked.number == 0 || asked.number == 46))
        note_one_row(lent, &query, &candidate, asked.number, asked.budget);
    if (value_query != NO_VALUE_QUERY && asked.number == 0)
        check_values(lent, &query, value_query, &candidate, asked.cost);
}
