/*
 * The row counts of a header: what they are after each row that is entered or read from a card, and that every call
 * refuses a plot for one wrong count alone. Asked of the library and of the reference at once; a refused call has to
 * leave all that it was lent.
 */
#include "differential/compare.h"
#include "support/checks.h"

#include <inttypes.h>
#include <stdio.h>
#include <string.h>

#define M(null) (CONSTANTS + (null))

enum { RELATIONS = 3 };

/* The relations of the worked plot: a card starts with these bytes. */
static const uint32_t arities[RELATIONS] = {2, 1, 3};
static const uint8_t card_start[] = {RELATIONS, 2, 1, 3};

static struct any_plot plot;
static struct any_card card;

static void check_named(const char *name, bool holds)
{
    if (!check(holds))
        printf("counts, %s: not as expected\n", name);
}

/* Whether the plot has these counts, and 0 for the relations that do not exist. */
static bool has_counts(const uint32_t counts[RELATIONS])
{
    bool same = true;
    for (uint32_t relation = 0; relation < MOST_RELATIONS; relation++)
        same = same && count_of(plot.header, relation) == (relation < RELATIONS ? counts[relation] : 0);
    return same;
}

/* The rows are entered one after the other, into 15 words. */
static const struct step {
    const char *name;
    uint32_t relation;
    struct any_cells cells;
    uint32_t number;
    uint32_t used;
    uint32_t counts[RELATIONS];
} steps[] = {
    {"a row of relation 1", 1, {{5}, 1}, 0, 2, {0, 1, 0}},
    {"a row of relation 2", 2, {{5, M(1), 6}, 3}, 0, 6, {0, 1, 1}},
    {"an equal row", 2, {{5, M(1), 6}, 3}, 0, 10, {0, 1, 2}},
    {"a row of no relation", 3, {{5}, 1}, 14, 10, {0, 1, 2}},
    {"a row that is too short", 2, {{5}, 1}, 27, 10, {0, 1, 2}},
    {"a row with no cell in it", 0, {{5, CONSTANTS}, 2}, 16, 10, {0, 1, 2}},
    {"a row of relation 0", 0, {{M(1), 2}, 2}, 0, 13, {1, 1, 2}},
    {"a row that has no room", 2, {{5, 6, 7}, 3}, 42, 13, {1, 1, 2}},
    {"a row of the last words", 1, {{2}, 1}, 0, 15, {1, 2, 2}},
};

static void check_entering(void)
{
    static const uint32_t none[RELATIONS];
    header_start(plot.header, RELATIONS, arities);
    plot.header_length = HEADER_WORDS;
    plot.length = 15;
    check_named("no rows", has_counts(none));
    for (size_t i = 0; i < sizeof steps / sizeof *steps; i++) {
        const struct step *step = &steps[i];
        uint32_t number = both_insert(&plot, step->relation, &step->cells);
        check_named(step->name,
                    number == step->number && plot.header[HEADER_USED] == step->used && has_counts(step->counts));
    }
}

/* The rows of a card, and the counts if it ends with them. */
static const struct card_row {
    const char *name;
    uint8_t bytes[8];
    size_t length;
    uint32_t counts[RELATIONS];
} card_rows[] = {
    {"a card's row of relation 2", {2, 5, 0, 0, 5, 0, 0, 6}, 8, {0, 0, 1}},
    {"a card's row of three blanks", {2, 0}, 2, {0, 0, 2}},
    {"a card's row of relation 1", {1, 1, 0, 0, 5}, 5, {0, 1, 2}},
    {"a card's row of relation 0", {0, 3, 0, 0, 1, 0, 0, 2}, 8, {1, 1, 2}},
    {"a card's row that is a blank", {1, 0}, 2, {1, 2, 2}},
};

/* Decodes the card over a header that counts nothing right. */
static bool is_decoded(void)
{
    size_t log_used = 1;
    memset(plot.header, 0xff, sizeof plot.header);
    plot.length = MOST_WORDS;
    return both_decode(&plot, &card, &log_used) == 0;
}

/* Cards of no row, of the first row, of the first two and so on. */
static void check_cards(void)
{
    static const uint32_t none[RELATIONS];
    memcpy(card.bytes, card_start, sizeof card_start);
    card.length = sizeof card_start + 2;
    check_named("a card without rows", is_decoded() && has_counts(none));
    for (size_t i = 0; i < sizeof card_rows / sizeof *card_rows; i++) {
        card.bytes[sizeof card_start + 1] = (uint8_t)(i + 1);
        memcpy(card.bytes + card.length, card_rows[i].bytes, card_rows[i].length);
        card.length += card_rows[i].length;
        check_named(card_rows[i].name, is_decoded() && has_counts(card_rows[i].counts));
    }
}

/* Each call in a way in which the plot of the whole card is accepted, with relation 1 and null 1. */
static uint32_t insert_row(struct any_plot *lent)
{
    return both_insert(lent, 1, &(const struct any_cells){{5}, 1});
}

static uint32_t substitute(struct any_plot *lent)
{
    uint32_t count;
    return both_substitute(lent, 1, 5, &count);
}

static uint32_t substitute_logged(struct any_plot *lent)
{
    static struct any_log log = {.length = MOST_WORDS};
    uint32_t count;
    log.used = 0;
    return both_substitute_logged(lent, &log, 1, 5, &count);
}

/* The log's only entry names the cell at index 1. */
static uint32_t undo(struct any_plot *lent)
{
    static struct any_log log = {{1, 1, 1}, 3, 3};
    uint32_t count;
    log.used = 3;
    return both_undo(lent, &log, &count);
}

static uint32_t null_counts(struct any_plot *lent)
{
    static const uint32_t output[NULLS];
    return both_null_counts(lent, output, NULLS);
}

static uint32_t encode(struct any_plot *lent)
{
    static struct any_card output = {.length = CARD_ROOM};
    uint32_t count;
    return both_encode(lent, &output, &count);
}

/* With a working list and without one. */
static uint32_t ask(struct any_plot *lent)
{
    static const struct any_query query = {{ROW_STANDS, 1, 5}, NODE_WORDS};
    static const struct any_cells none;
    uint32_t truth;
    uint32_t cost;
    return both_ask(lent, &query, &none, MOST_WORDS, UINT32_MAX, &truth, &cost);
}

static uint32_t decode(struct any_plot *lent)
{
    size_t log_used = 1;
    return both_decode(lent, &card, &log_used);
}

static const struct {
    const char *name;
    uint32_t (*call)(struct any_plot *lent);
} calls[] = {
    {"insert", insert_row},
    {"substitute", substitute},
    {"substitute_logged", substitute_logged},
    {"undo", undo},
    {"null_counts", null_counts},
    {"encode", encode},
    {"ask, listed and not", ask},
    {"decode", decode},
};

/* Checks what each call returns of the plot; decode, which does not read it, may return another number. */
static void check_calls(const char *name, uint32_t number, uint32_t decode_number)
{
    static struct any_plot lent;
    for (size_t i = 0; i < sizeof calls / sizeof *calls; i++) {
        lent = plot;
        uint32_t given = calls[i].call(&lent);
        if (!check(given == (calls[i].call == decode ? decode_number : number)))
            printf("counts, %s: %s returns %" PRIu32 "\n", name, calls[i].name, given);
    }
}

/* The plot with another count in place of one; that is then put back. */
static void check_with_count(const char *name, uint32_t relation, uint32_t count)
{
    uint32_t right = count_of(plot.header, relation);
    plot.header[HEADER_COUNTS + relation] = count;
    check_calls(name, 41, 0);
    plot.header[HEADER_COUNTS + relation] = right;
}

/* Each count of the card's plot in turn, those of relations that do not exist too. */
static void check_wrong_counts(void)
{
    check_calls("right counts", 0, 0);
    for (uint32_t relation = 0; relation < MOST_RELATIONS; relation++) {
        uint32_t right = count_of(plot.header, relation);
        char name[64];
        snprintf(name, sizeof name, "relation %" PRIu32 ", one row too many", relation);
        check_with_count(name, relation, right + 1);
        snprintf(name, sizeof name, "relation %" PRIu32 ", one row too few", relation);
        check_with_count(name, relation, right - 1);
        snprintf(name, sizeof name, "relation %" PRIu32 ", the largest count", relation);
        check_with_count(name, relation, UINT32_MAX);
    }
    plot.header[HEADER_COUNTS]++;
    check_with_count("a row of relation 1 counted in relation 0", 1, 1);
    check_with_count("a row of relation 2 counted in relation 0", 2, 1);
    plot.header[HEADER_COUNTS]--;
    plot.header[HEADER_COUNTS + RELATIONS]++;
    check_with_count("a row of relation 2 counted in one that does not exist", 2, 1);
    plot.header[HEADER_COUNTS + RELATIONS]--;
    check_calls("the right counts again", 0, 0);
}

/* A header that ends before its counts, and others that are too short or too long, of words that are right. */
static void check_lengths(void)
{
    static const struct {
        const char *name;
        size_t length;
    } lengths[] = {
        {"a header without its counts", HEADER_WORDS - MOST_RELATIONS},
        {"a header that lacks a word", HEADER_WORDS - 1},
        {"a header with a word more", HEADER_WORDS + 1},
        {"a header of no words", 0},
    };
    for (size_t i = 0; i < sizeof lengths / sizeof *lengths; i++) {
        plot.header_length = lengths[i].length;
        check_calls(lengths[i].name, 41, 41);
    }
    plot.header_length = HEADER_WORDS;
}

/* As many rows as a plot can have: 4,096 words in rows of one column. */
static void check_full_plot(void)
{
    const uint32_t arity = 1;
    const uint32_t rows = MOST_WORDS / 2;
    uint32_t count;
    bool entered = true;
    header_start(plot.header, 1, &arity);
    plot.length = MOST_WORDS;
    for (uint32_t row = 1; row <= rows; row++)
        entered = entered && both_insert(&plot, 0, &(const struct any_cells){{M(1)}, 1}) == 0 &&
                  count_of(plot.header, 0) == row;
    check_named("2,048 rows", entered && count_of(plot.header, 0) == 2048);
    bool refused = both_insert(&plot, 0, &(const struct any_cells){{5}, 1}) == 42;
    check_named("2,049 rows", refused && count_of(plot.header, 0) == 2048);
    card.length = CARD_ROOM;
    bool encoded = both_encode(&plot, &card, &count) == 0;
    card.length = count;
    check_named("a card of 2,048 rows", encoded && is_decoded() && count_of(plot.header, 0) == 2048);
    check_with_count("2,048 rows, one too many", 0, rows + 1);
    check_with_count("2,048 rows, one too few", 0, rows - 1);
    check_with_count("2,048 rows, the largest count", 0, UINT32_MAX);
    check_with_count("2,048 rows, and one of a relation that does not exist", MOST_RELATIONS - 1, 1);
}

int main(void)
{
    check_entering();
    check_cards();
    check_wrong_counts();
    check_lengths();
    check_full_plot();
    return finish_checks();
}
