#include "loops.h"
#include "baseline.h"

static uint32_t lower(uint32_t a, uint32_t b)
{
    return a < b ? a : b;
}

static uint32_t higher(uint32_t a, uint32_t b)
{
    return a > b ? a : b;
}

static uint32_t not(uint32_t truth)
{
    return PLOTASK_TRUE - truth;
}

static uint32_t equal(uint32_t a, uint32_t b, uint64_t *cost)
{
    *cost += 1;
    if (a == b)
        return PLOTASK_TRUE;
    return a < PLOTASK_CONSTANTS && b < PLOTASK_CONSTANTS ? PLOTASK_FALSE : PLOTASK_UNKNOWN;
}

uint32_t nothing_by_hand(const uint32_t *values, size_t count, uint64_t *cost)
{
    (void)values;
    (void)count;
    return equal(0, 0, cost);
}

uint32_t row_by_hand(const uint32_t *values, size_t count, uint64_t *cost)
{
    (void)values;
    (void)count;
    return row_stands(&now.header, now.plot, 0, now.candidate, cost);
}

uint32_t absent_by_hand(const uint32_t *values, size_t count, uint64_t *cost)
{
    uint32_t result = PLOTASK_TRUE;

    for (size_t i = 0; i < count && result != PLOTASK_FALSE; i++) {
        uint32_t v = values[i], row[PLOTASK_COLUMNS] = {v, v, v, v, v, v};
        result = lower(result, not(row_stands(&now.header, now.plot, 0, row, cost)));
    }
    return result;
}

uint32_t pairs_by_hand(const uint32_t *values, size_t count, uint64_t *cost)
{
    uint32_t result = PLOTASK_TRUE;

    for (size_t i = 0; i < count && result != PLOTASK_FALSE; i++)
        for (size_t j = 0; j < count && result != PLOTASK_FALSE; j++) {
            uint32_t either = equal(values[i], values[j], cost);
            if (either != PLOTASK_TRUE)
                either = higher(either, not(equal(values[i], values[j], cost)));
            result = lower(result, either);
        }
    return result;
}

/* row_stands is compiled by itself, so that no test can be left out here for being the same as the last. */
void row_tests_by_hand(void)
{
    uint64_t cost = 0;

    refusal = PLOTASK_DONE;
    for (int i = 0; i < ROW_TESTS; i++)
        truth = row_stands(&now.header, now.plot, 0, now.candidate, &cost);
    count = (uint32_t)cost;
}
