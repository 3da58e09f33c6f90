/*
 * Which of plotask's two ways a question is asked by. They answer alike, so the answers do not tell: the linker puts the
 * functions here in front of the library's (--wrap).
 */
#include "parts.h"
#include "talk.h"

__typeof__(plotask_ask) __real_plotask_ask, __wrap_plotask_ask;
__typeof__(plotask_ask_unlisted) __real_plotask_ask_unlisted, __wrap_plotask_ask_unlisted;

static unsigned listed, unlisted;

uint32_t __wrap_plotask_ask(const uint32_t *header, size_t header_words, const uint32_t *plot, size_t plot_words,
                            const uint32_t *query, size_t query_words, const uint32_t *candidate,
                            size_t candidate_cells, uint32_t *list, size_t list_words, uint32_t budget, uint32_t *truth,
                            uint32_t *cost)
{
    listed++;
    return __real_plotask_ask(header, header_words, plot, plot_words, query, query_words, candidate, candidate_cells,
                              list, list_words, budget, truth, cost);
}

uint32_t __wrap_plotask_ask_unlisted(const uint32_t *header, size_t header_words, const uint32_t *plot,
                                     size_t plot_words, const uint32_t *query, size_t query_words,
                                     const uint32_t *candidate, size_t candidate_cells, uint32_t budget,
                                     uint32_t *truth, uint32_t *cost)
{
    unlisted++;
    return __real_plotask_ask_unlisted(header, header_words, plot, plot_words, query, query_words, candidate,
                                       candidate_cells, budget, truth, cost);
}

/* The line asks plotask so often by each way. */
static void asks(const char *line, unsigned by_list, unsigned by_none)
{
    listed = unlisted = 0;
    type(line);
    expect(line, listed == by_list && unlisted == by_none);
}

void check_ways(void)
{
    START("sheet hangs lamp", "hangs m1", "hangs m2", "question q: some(x, in(hangs, x))");
    asks("ask q", 1, 0);
    asks("ask q unlisted", 0, 1);
    asks("ask in(hangs, v0) 5 within 9", 1, 0);
    asks("ask in(hangs, v0) 5 unlisted within 9", 0, 1);
    asks("ask in(hangs, v0) 6 within 9 unlisted", 0, 1);
    asks("fill m1 5", 2, 3);
    asks("hangs 7", 2, 3);
    asks("take back", 2, 3);
    asks("forget q", 0, 0);
    asks("fill m2 5", 1, 2);
}
