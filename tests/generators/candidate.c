/* Candidates, which also serve as rows to insert. */
#include "generate.h"

void make_candidate(struct random *random, const struct palette *palette, struct any_cells *candidate)
{
    const struct palette other = {.wide = true, .constant_count = 1, .null_count = 1};
    candidate->length = below(random, MOST_COLUMNS + 1);
    for (size_t i = 0; i < CELLS_ROOM; i++)
        candidate->cells[i] = any_cell(random, one_in(random, 10) ? &other : palette);
}

void damage_candidate(struct random *random, struct any_cells *candidate)
{
    if (candidate->length > 0 && one_in(random, 2)) {
        size_t index = below(random, candidate->length);
        candidate->cells[index] = odd_number(random, candidate->cells[index]);
    } else if (one_in(random, 2)) {
        candidate->length = MOST_COLUMNS + 1 + below(random, 3);
    } else if (candidate->length > 0) {
        candidate->length--;
    }
}
