/*
 * Slices that are lent as NULL, 0. Each call is made with every set of its slices empty. It has to return and leave the
 * same as the library's own function does with the address of each empty slice and 0. No null pointer may get to the
 * library: the linker puts the functions here in front of it (--wrap), which look at the pointers.
 */
#include "support/checks.h"
#include "work/build.h"

#include <stdio.h>
#include <string.h>

CALLS(__real_);
CALLS(__wrap_);

static const struct build by_header = BUILD(), by_library = BUILD(__real_);

/* Whether the last call came to the library with no null pointer for a slice. */
static bool came_whole;

uint32_t __wrap_plotask_decode(const uint8_t *card, size_t card_bytes, uint32_t *header, size_t header_words,
                               uint32_t *plot, size_t plot_words, size_t *log_used)
{
    came_whole = card && header && plot;
    return __real_plotask_decode(card, card_bytes, header, header_words, plot, plot_words, log_used);
}

uint32_t __wrap_plotask_insert(uint32_t *header, size_t header_words, uint32_t *plot, size_t plot_words,
                               uint32_t relation, const uint32_t *cells, size_t cell_count)
{
    came_whole = header && plot && cells;
    return __real_plotask_insert(header, header_words, plot, plot_words, relation, cells, cell_count);
}

uint32_t __wrap_plotask_substitute(const uint32_t *header, size_t header_words, uint32_t *plot, size_t plot_words,
                                   uint32_t mark, uint32_t cell, uint32_t *count)
{
    came_whole = header && plot;
    return __real_plotask_substitute(header, header_words, plot, plot_words, mark, cell, count);
}

uint32_t __wrap_plotask_substitute_logged(const uint32_t *header, size_t header_words, uint32_t *plot,
                                          size_t plot_words, uint32_t *log, size_t log_words, size_t *log_used,
                                          uint32_t mark, uint32_t cell, uint32_t *count)
{
    came_whole = header && plot && log;
    return __real_plotask_substitute_logged(header, header_words, plot, plot_words, log, log_words, log_used, mark,
                                            cell, count);
}

uint32_t __wrap_plotask_undo(const uint32_t *header, size_t header_words, uint32_t *plot, size_t plot_words,
                             const uint32_t *log, size_t log_words, size_t *log_used, uint32_t *count)
{
    came_whole = header && plot && log;
    return __real_plotask_undo(header, header_words, plot, plot_words, log, log_words, log_used, count);
}

uint32_t __wrap_plotask_null_counts(const uint32_t *header, size_t header_words, const uint32_t *plot,
                                    size_t plot_words, uint32_t *counts, size_t counts_words, uint32_t *count)
{
    came_whole = header && plot && counts;
    return __real_plotask_null_counts(header, header_words, plot, plot_words, counts, counts_words, count);
}

uint32_t __wrap_plotask_encode(const uint32_t *header, size_t header_words, const uint32_t *plot, size_t plot_words,
                               uint8_t *card, size_t card_bytes, uint32_t *count)
{
    came_whole = header && plot && card;
    return __real_plotask_encode(header, header_words, plot, plot_words, card, card_bytes, count);
}

uint32_t __wrap_plotask_ask(const uint32_t *header, size_t header_words, const uint32_t *plot, size_t plot_words,
                            const uint32_t *query, size_t query_words, const uint32_t *candidate,
                            size_t candidate_cells, uint32_t *list, size_t list_words, uint32_t budget, uint32_t *truth,
                            uint32_t *cost)
{
    came_whole = header && plot && query && candidate && list;
    return __real_plotask_ask(header, header_words, plot, plot_words, query, query_words, candidate, candidate_cells,
                              list, list_words, budget, truth, cost);
}

uint32_t __wrap_plotask_ask_unlisted(const uint32_t *header, size_t header_words, const uint32_t *plot,
                                     size_t plot_words, const uint32_t *query, size_t query_words,
                                     const uint32_t *candidate, size_t candidate_cells, uint32_t budget,
                                     uint32_t *truth, uint32_t *cost)
{
    came_whole = header && plot && query && candidate;
    return __real_plotask_ask_unlisted(header, header_words, plot, plot_words, query, query_words, candidate,
                                       candidate_cells, budget, truth, cost);
}

enum slice { HEADER, PLOT, LOG, QUERY, CELLS, LIST, WORD_SLICES, CARD = WORD_SLICES };

/* What calls are lent, and may change. */
struct memory {
    uint32_t words[WORD_SLICES][PLOTASK_MARKS];
    uint8_t card[16];
    size_t log_used;
    uint32_t count, truth, cost;
};

static struct memory memory;
static size_t lengths[CARD + 1];

/* The slices to be lent empty, a bit for each, and whether their pointers are null. */
static unsigned empty;
static bool null_if_empty;

static void put_words(enum slice slice, size_t length, const uint32_t *words, size_t count)
{
    lengths[slice] = length;
    memcpy(memory.words[slice], words, count * sizeof *words);
}

/*
 * A sheet of one column, with the row (m1) or without rows, and for each call what it accepts with that row: room for
 * one more, a log whose entry names m1's cell and that has room for another, the plot's card, and a question that names
 * no value.
 */
static void prepare(bool row)
{
    const struct plotask_header header = {1, {1}, row ? 2 : 0, {row}};
    const uint32_t plot[] = {0, PLOTASK_MARK(1)}, log[] = {1, 1, 1}, cell = 5;
    const uint32_t query[] = {PLOTASK_SOME,        0, 1, 0, 0, 0, 0, 0, PLOTASK_EQUAL, PLOTASK_VARIABLE(0),
                              PLOTASK_VARIABLE(0), 0, 0, 0, 0, 0};
    const uint8_t card[] = {1, 1, 0, row, 0, 1, 0x0f, 0x42, 0x41};

    memset(&memory, 0xa5, sizeof memory);
    put_words(HEADER, PLOTASK_HEADER_WORDS, PLOTASK_CONST_HEADER(&header));
    put_words(PLOT, 4, plot, 2);
    put_words(LOG, 6, log, 3);
    put_words(QUERY, 2 * PLOTASK_NODE_WORDS, query, 2 * PLOTASK_NODE_WORDS);
    put_words(CELLS, 1, &cell, 1);
    lengths[LIST] = PLOTASK_MARKS;
    lengths[CARD] = row ? sizeof card : 4;
    memcpy(memory.card, card, sizeof card);
    memory.log_used = row ? 3 : 0;
}

static bool is_empty(enum slice slice)
{
    return empty >> slice & 1;
}

static size_t length_of(enum slice slice)
{
    return is_empty(slice) ? 0 : lengths[slice];
}

/* A slice as two arguments of a call. */
#define LENT(slice, start) (is_empty(slice) && null_if_empty ? NULL : (start)), length_of(slice)
#define WORDS(slice)       LENT(slice, memory.words[slice])
#define BYTES(slice)       LENT(slice, memory.card)

static uint32_t decode(const struct build *by)
{
    return by->decode(BYTES(CARD), WORDS(HEADER), WORDS(PLOT), &memory.log_used);
}

static uint32_t insert(const struct build *by)
{
    return by->insert(WORDS(HEADER), WORDS(PLOT), 0, WORDS(CELLS));
}

static uint32_t substitute(const struct build *by)
{
    return by->substitute(WORDS(HEADER), WORDS(PLOT), 1, 5, &memory.count);
}

static uint32_t substitute_logged(const struct build *by)
{
    return by->substitute_logged(WORDS(HEADER), WORDS(PLOT), WORDS(LOG), &memory.log_used, 1, 5, &memory.count);
}

static uint32_t undo(const struct build *by)
{
    return by->undo(WORDS(HEADER), WORDS(PLOT), WORDS(LOG), &memory.log_used, &memory.count);
}

static uint32_t null_counts(const struct build *by)
{
    return by->null_counts(WORDS(HEADER), WORDS(PLOT), WORDS(LIST), &memory.count);
}

static uint32_t encode(const struct build *by)
{
    return by->encode(WORDS(HEADER), WORDS(PLOT), BYTES(CARD), &memory.count);
}

static uint32_t ask(const struct build *by)
{
    return by->ask(WORDS(HEADER), WORDS(PLOT), WORDS(QUERY), WORDS(CELLS), WORDS(LIST), 9, &memory.truth, &memory.cost);
}

static uint32_t ask_unlisted(const struct build *by)
{
    return by->ask_unlisted(WORDS(HEADER), WORDS(PLOT), WORDS(QUERY), WORDS(CELLS), 9, &memory.truth, &memory.cost);
}

/* Each call, its slices, and what it returns if one of them alone is empty: for the plot with a row, and without. */
static const struct call {
    const char *name;
    uint32_t (*make)(const struct build *by);
    size_t slices;
    struct {
        enum slice slice;
        uint32_t with_row, without;
    } one[5];
} calls[] = {
    {"decode", decode, 3, {{CARD, 11, 11}, {HEADER, 41, 41}, {PLOT, 42, 0}}},
    {"insert", insert, 3, {{HEADER, 41, 41}, {PLOT, 41, 42}, {CELLS, 27, 27}}},
    {"substitute", substitute, 2, {{HEADER, 41, 41}, {PLOT, 41, 43}}},
    {"substitute_logged", substitute_logged, 3, {{HEADER, 41, 41}, {PLOT, 41, 43}, {LOG, 47, 43}}},
    {"undo", undo, 3, {{HEADER, 41, 41}, {PLOT, 41, 48}, {LOG, 49, 48}}},
    {"null_counts", null_counts, 3, {{HEADER, 41, 41}, {PLOT, 41, 0}, {LIST, 44, 44}}},
    {"encode", encode, 3, {{HEADER, 41, 41}, {PLOT, 41, 0}, {CARD, 44, 44}}},
    {"ask", ask, 5, {{HEADER, 41, 41}, {PLOT, 41, 0}, {QUERY, 21, 21}, {CELLS, 0, 0}, {LIST, 45, 0}}},
    {"ask_unlisted", ask_unlisted, 4, {{HEADER, 41, 41}, {PLOT, 41, 0}, {QUERY, 21, 21}, {CELLS, 0, 0}}},
};

static void check_named(const struct call *call, const char *what, bool holds)
{
    if (!check(holds))
        printf("%s, empty slices %#x: %s\n", call->name, empty, what);
}

/* Makes the call with the chosen slices empty, and returns its number; `left` gets what it leaves. */
static uint32_t make_call(const struct call *call, bool row, const struct build *by, bool null, struct memory *left)
{
    prepare(row);
    null_if_empty = null;
    uint32_t number = call->make(by);
    memcpy(left, &memory, sizeof memory);
    return number;
}

static uint32_t check_call(const struct call *call, bool row)
{
    static struct memory expected, left;
    uint32_t number = make_call(call, row, &by_library, false, &expected);
    came_whole = false;
    bool same = make_call(call, row, &by_header, true, &left) == number;
    check_named(call, "a null pointer comes to the library", came_whole);
    check_named(call, "null pointers lead to another result", same && memcmp(&left, &expected, sizeof left) == 0);
    return number;
}

/* Each slice of a call alone, with its number, and every other set of them. */
static void check_sets(const struct call *call, bool row)
{
    for (unsigned set = 0; set < 1u << call->slices; set++) {
        empty = 0;
        for (size_t i = 0; i < call->slices; i++)
            empty |= (set >> i & 1) << call->one[i].slice;
        uint32_t number = check_call(call, row);
        for (size_t i = 0; i < call->slices; i++)
            if (set == 1u << i)
                check_named(call, "another number", number == (row ? call->one[i].with_row : call->one[i].without));
    }
}

int main(void)
{
    for (size_t i = 0; i < sizeof calls / sizeof *calls; i++) {
        check_sets(&calls[i], true);
        check_sets(&calls[i], false);
    }
    return finish_checks();
}
