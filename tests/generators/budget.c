/* Budgets, and what the reference foresees of a query. */
#include "generate.h"

uint32_t foresee(const struct any_plot *plot, const struct any_query *query, const struct any_cells *candidate,
                 uint32_t budget, uint32_t *cost)
{
    static uint32_t list[PLOT_ROOM];
    uint32_t truth;
    return ref_ask(plot->header, plot->header_length, plot->words, plot->length, query->words, query->length,
                   candidate->cells, candidate->length, list, PLOT_ROOM, budget, &truth, cost);
}

uint32_t any_budget(struct random *random, const struct any_plot *plot, const struct any_query *query,
                    const struct any_cells *candidate, uint32_t most)
{
    uint32_t cost;
    uint32_t number = foresee(plot, query, candidate, most, &cost);
    if (number == 46)
        return one_in(random, 3) ? most : below(random, most);
    if (number != 0)
        return odd_number(random, 0);
    switch (below(random, 7)) {
    case 0:
    case 1:
        return cost - 1;
    case 2:
        return cost + 1;
    case 3:
        return one_in(random, 2) ? 0 : below(random, cost + 1);
    case 4:
        return UINT32_MAX;
    default:
        return cost;
    }
}
