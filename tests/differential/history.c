#include "history.h"

#include <string.h>

enum { MOST_STEPS = 40 };

struct fill {
    size_t time;
    uint32_t null;
    uint32_t cell;
};

/*
 * The account of a history: each word as it was entered, and the substitutions that count. An undo strikes out the
 * last of these. Times are the numbers of the steps; the words of the start were entered at time 0.
 */
static struct {
    size_t now;
    size_t used;
    uint32_t words[MOST_WORDS];
    bool is_cell[MOST_WORDS];
    size_t entered[MOST_WORDS];
    struct fill fills[MOST_STEPS];
    size_t fill_count;
} account;

/*
 * The plot's words and the log that the account leads to, worked out from the start after each step. Words of the log
 * that are not in use stay: those of the fresh log, and of entries that were undone.
 */
static struct {
    uint32_t words[MOST_WORDS];
    uint32_t log[LOG_ROOM];
    size_t log_used;
} told;

/* The plot at the start, whose words behind those in use stay. */
static struct any_plot start;
static struct any_log fill_log;

static void enter_words(const uint32_t *header, const uint32_t *words, size_t count)
{
    for (size_t at = 0; at < count; at += 1 + arity_of(header, words[at]))
        for (size_t i = 0; i <= arity_of(header, words[at]); i++) {
            account.words[account.used] = words[at + i];
            account.is_cell[account.used] = i > 0;
            account.entered[account.used] = account.now;
            account.used++;
        }
}

/* Replaces the null in the cells that were entered before, and writes the entry. */
static void tell_fill(const struct fill *fill)
{
    uint32_t held = 0;
    for (uint32_t place = 0; place < account.used; place++)
        if (account.is_cell[place] && account.entered[place] < fill->time &&
            told.words[place] == CONSTANTS + fill->null) {
            told.words[place] = fill->cell;
            told.log[told.log_used++] = place;
            held++;
        }
    told.log[told.log_used++] = fill->null;
    told.log[told.log_used++] = held;
}

static void tell(void)
{
    memcpy(told.words, account.words, account.used * sizeof *told.words);
    told.log_used = 0;
    for (size_t i = 0; i < account.fill_count; i++)
        tell_fill(&account.fills[i]);
}

static void check_step(const struct any_plot *plot)
{
    uint32_t header[HEADER_WORDS];
    size_t used = account.used;
    header_of_rows(header, start.header[HEADER_RELATIONS], start.header + HEADER_ARITIES, account.words, used);
    tell();
    if (memcmp(header, plot->header, sizeof header) != 0)
        fail("the header is not that of the history's rows");
    if (memcmp(told.words, plot->words, used * sizeof *told.words) != 0)
        fail("the plot is not what its history says");
    if (memcmp(start.words + used, plot->words + used, (start.length - used) * sizeof *start.words) != 0)
        fail("a history changed words that are not in use");
    if (told.log_used != fill_log.used)
        fail("the log's words in use are not those of the substitutions that count");
    if (memcmp(told.log, fill_log.words, fill_log.length * sizeof *told.log) != 0)
        fail("the log is not that of the substitutions that count");
}

static bool is_cell_number(uint32_t number)
{
    return number != CONSTANTS && number <= CONSTANTS + NULLS;
}

static void fill_step(struct random *random, const struct palette *palette, struct any_plot *plot)
{
    uint32_t null = null_to_replace(random, palette, plot);
    struct fill fill = {account.now, null, any_replacement(random, palette, null)};
    uint32_t expected = 0;
    uint32_t held = 0;
    uint32_t count;
    for (size_t place = 0; place < account.used; place++)
        held += told.words[place] == CONSTANTS + null;
    if (null < 1 || null > NULLS)
        expected = 29;
    else if (!is_cell_number(fill.cell))
        expected = 16;
    else if (held == 0)
        expected = 43;
    else if (told.log_used + 2 + held > fill_log.length)
        expected = 47;
    uint32_t number = both_substitute_logged(plot, &fill_log, null, fill.cell, &count);
    if (number != expected || (number == 0 && count != held))
        fail("a logged substitution does not answer what its history says");
    if (number == 0)
        account.fills[account.fill_count++] = fill;
    if (number == 47)
        note(HISTORY_LOG_FULL);
}

static void insert_step(struct random *random, const struct palette *palette, struct any_plot *plot)
{
    uint32_t relation = below(random, start.header[HEADER_RELATIONS]);
    uint32_t row[1 + CELLS_ROOM];
    struct any_cells cells;
    uint32_t expected = 0;
    make_candidate(random, palette, &cells);
    cells.length = arity_of(start.header, relation);
    if (one_in(random, 8))
        cells.cells[below(random, cells.length)] = CONSTANTS;
    size_t needed = account.used + 1 + cells.length;
    row[0] = relation;
    memcpy(row + 1, cells.cells, cells.length * sizeof *row);
    for (size_t i = 0; i < cells.length; i++)
        if (!is_cell_number(cells.cells[i]))
            expected = 16;
    if (expected == 0 && (needed > MOST_WORDS || needed > plot->length))
        expected = 42;
    if (one_in(random, 12)) {
        cells.length--;
        expected = 27;
    }
    if (one_in(random, 12)) {
        relation = start.header[HEADER_RELATIONS] + below(random, 2);
        expected = 14;
    }
    if (both_insert(plot, relation, &cells) != expected)
        fail("an insert does not answer what its history says");
    if (expected == 0)
        enter_words(start.header, row, 1 + cells.length);
}

/* Notes what the undo of the last substitution that counts has to tell apart. */
static void note_undo(const struct fill *fill)
{
    bool in_entry[MOST_WORDS] = {false};
    bool met[NAMED_CASES] = {false};
    uint32_t null = CONSTANTS + fill->null;
    uint32_t held = told.log[told.log_used - 1];
    const uint32_t *places = told.log + told.log_used - 2 - held;
    met[UNDO_BY_ITSELF] = fill->cell == null;
    for (size_t i = 0; i < held; i++) {
        in_entry[places[i]] = true;
        met[UNDO_OVER_FILL] |= account.words[places[i]] != null;
    }
    for (size_t place = 0; place < account.used; place++) {
        bool later = account.entered[place] > fill->time;
        met[UNDO_AFTER_INSERT] |= later;
        if (!account.is_cell[place] || in_entry[place])
            continue;
        met[later ? LATER_CELL_STAYS : EQUAL_CELL_STAYS] |= told.words[place] == fill->cell;
        met[LATER_NULL_STAYS] |= later && told.words[place] == null;
    }
    for (size_t i = 0; i < NAMED_CASES; i++)
        if (met[i])
            note((enum named_case)i);
}

static void undo_step(struct any_plot *plot)
{
    uint32_t count;
    uint32_t expected = account.fill_count == 0 ? 48 : 0;
    if (expected == 48)
        note(HISTORY_LOG_EMPTY);
    else
        note_undo(&account.fills[account.fill_count - 1]);
    uint32_t number = both_undo(plot, &fill_log, &count);
    if (number != expected || (number == 0 && count != told.log[told.log_used - 1]))
        fail("an undo does not answer what its history says");
    if (number == 0)
        account.fill_count--;
}

static void take_step(struct random *random, const struct palette *palette, struct any_plot *plot)
{
    size_t choice = below(random, 8);
    account.now++;
    if (choice < 2)
        insert_step(random, palette, plot);
    else if (choice == 2)
        try_call_between(random, palette, plot);
    else if (choice < 5 && (account.fill_count > 0 || one_in(random, 4)))
        undo_step(plot);
    else
        fill_step(random, palette, plot);
    check_step(plot);
}

/* Undoes all that counts: the plot is then the rows as they were entered. */
static void undo_all(struct any_plot *plot)
{
    if (account.fill_count > 0 && account.used > start.header[HEADER_USED])
        note(ALL_UNDONE);
    while (account.fill_count > 0) {
        undo_step(plot);
        check_step(plot);
    }
    undo_step(plot);
    if (memcmp(account.words, plot->words, account.used * sizeof *account.words) != 0)
        fail("all is undone, and the plot is not its rows as they were entered");
}

/* A fresh log by a card of the plot that is decoded: it had words in use. */
static void start_by_card(struct random *random, struct any_plot *plot)
{
    static struct any_card card;
    uint32_t count;
    card.length = 3 * MOST_WORDS; /* more than any card needs */
    fill_log.used = odd_number(random, 3);
    if (both_encode(plot, &card, &count) != 0)
        fail("a sound plot is not encoded");
    card.length = count;
    if (both_decode(plot, &card, &fill_log.used) != 0)
        fail("an encoded card is refused");
    note(HISTORY_FROM_CARD);
}

/* Room for a few entries or many, and for a few rows or many. */
static void make_room(struct random *random, struct any_plot *plot)
{
    size_t entries = 3 * (count_cells(plot) + 10);
    size_t most = one_in(random, 3) ? 12 : entries < LOG_ROOM ? entries : LOG_ROOM;
    make_fresh_log(random, &fill_log, below(random, most + 1));
    size_t length = plot->header[HEADER_USED] + below(random, one_in(random, 2) ? 20 : 200);
    for (size_t i = plot->length; i < length; i++)
        plot->words[i] = odd_number(random, 0);
    if (plot->length < length)
        plot->length = length;
}

void try_history(struct random *random, const struct palette *palette, struct any_plot *plot)
{
    if (plot->header[HEADER_USED] > MOST_WORDS)
        return;
    make_room(random, plot);
    if (one_in(random, 4))
        start_by_card(random, plot);
    start = *plot;
    memcpy(told.log, fill_log.words, fill_log.length * sizeof *told.log);
    account.now = 0;
    account.used = 0;
    account.fill_count = 0;
    enter_words(start.header, start.words, start.header[HEADER_USED]);
    check_step(plot);
    for (size_t steps = 4 + below(random, MOST_STEPS - 3); steps > 0; steps--)
        take_step(random, palette, plot);
    if (one_in(random, 2))
        undo_all(plot);
}
