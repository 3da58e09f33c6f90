#include "work.h"
#include "baseline/baseline.h"
#include "reference/reference.h"

#include <stdio.h>
#include <stdlib.h>
#include <string.h>

struct sample now;
uint32_t refusal, truth, count;
answering *by_hand;

static const struct build this_build = BUILD();
const struct build *build = &this_build;

/* A header as the chosen build takes it. */
#define HEADER(header) plotask_header_words(header), build->header_words

static uint32_t list[PLOTASK_LIST_WORDS];
static uint8_t card[PLOTASK_CARD_BYTES], written[PLOTASK_CARD_BYTES];
static uint32_t card_bytes;
static struct plotask_header read_header;
static uint32_t read_plot[PLOTASK_WORDS];
static uint32_t fill_log[PLOTASK_ENTRY_WORDS];
static size_t fill_log_used;
static uint32_t counts[PLOTASK_MARKS];
static const uint32_t row[PLOTASK_COLUMNS] = {1, 2, 3, 4, 5, 6};

static uint32_t ask_nodes(const uint32_t *nodes, size_t words, uint32_t budget)
{
    return build->ask(HEADER(&now.header), now.plot, PLOTASK_WORDS, nodes, words, now.candidate, now.candidate_cells,
                      list, PLOTASK_LIST_WORDS, budget, &truth, &count);
}

void ask(void)
{
    refusal = ask_nodes(now.query, now.query_words, UINT32_MAX);
}

void ask_unlisted(void)
{
    refusal = build->ask_unlisted(HEADER(&now.header), now.plot, PLOTASK_WORDS, now.query, now.query_words,
                                  now.candidate, now.candidate_cells, UINT32_MAX, &truth, &count);
}

void ask_refused(void)
{
    refusal = ask_nodes(now.query, now.query_words, 100) != PLOTASK_BUDGET_SPENT;
}

void ask_zero(void)
{
    static const uint32_t node[PLOTASK_NODE_WORDS] = {PLOTASK_EQUAL, 0, 0};
    refusal = ask_nodes(node, PLOTASK_NODE_WORDS, UINT32_MAX);
}

void ask_last_node(void)
{
    refusal = ask_nodes(now.query + now.query_words - PLOTASK_NODE_WORDS, PLOTASK_NODE_WORDS, UINT32_MAX);
}

static void ask_by_hand(listing *list_range)
{
    uint64_t cost = 0;

    refusal = !is_sound(&now.header, now.plot, PLOTASK_WORDS);
    if (refusal != PLOTASK_DONE)
        return;
    truth = by_hand(list, list_range(&now.header, now.plot, now.query, now.query_words, list), &cost);
    refusal = cost > UINT32_MAX;
    count = (uint32_t)cost;
}

void ask_scanning(void)
{
    ask_by_hand(list_by_scan);
}

void ask_hashing(void)
{
    ask_by_hand(list_by_table);
}

void ask_reference(void)
{
    refusal = ref_ask(PLOTASK_HEADER(&now.header), now.plot, PLOTASK_WORDS, now.query, now.query_words, now.candidate,
                      now.candidate_cells, list, PLOTASK_LIST_WORDS, UINT32_MAX, &truth, &count);
}

void decode(void)
{
    refusal = build->decode(card, card_bytes, HEADER(&read_header), read_plot, PLOTASK_WORDS, &fill_log_used);
}

void decode_by_hand(void)
{
    refusal = !decode_card(card, card_bytes, &read_header, read_plot, PLOTASK_WORDS);
}

void decode_reference(void)
{
    refusal = ref_decode(card, card_bytes, PLOTASK_HEADER(&read_header), read_plot, PLOTASK_WORDS, &fill_log_used);
}

void encode(void)
{
    refusal = build->encode(HEADER(&now.header), now.plot, PLOTASK_WORDS, written, sizeof written, &count);
}

void encode_by_hand(void)
{
    refusal = !encode_card(&now.header, now.plot, PLOTASK_WORDS, written, sizeof written);
}

void encode_reference(void)
{
    refusal = ref_encode(PLOTASK_HEADER(&now.header), now.plot, PLOTASK_WORDS, written, sizeof written, &count);
}

/* Nulls 1 and 2 replace each other in turn, so that each call has as much to do as the last. */
static uint32_t null_to_replace;

static uint32_t next_null(void)
{
    null_to_replace = 3 - null_to_replace;
    return null_to_replace;
}

void substitute(void)
{
    uint32_t null = next_null();
    refusal = build->substitute(HEADER(&now.header), now.plot, PLOTASK_WORDS, null, PLOTASK_MARK(3 - null), &count);
}

void substitute_by_hand(void)
{
    uint32_t null = next_null();
    refusal = !replace_null(&now.header, now.plot, PLOTASK_WORDS, null, PLOTASK_MARK(3 - null));
}

void substitute_reference(void)
{
    uint32_t null = next_null();
    refusal =
        ref_substitute(PLOTASK_HEADER(&now.header), now.plot, PLOTASK_WORDS, null, PLOTASK_MARK(3 - null), &count);
}

void there_and_back(void)
{
    refusal = build->substitute(HEADER(&now.header), now.plot, PLOTASK_WORDS, 1, PLOTASK_MARK(2), &count);
    refusal |= build->substitute(HEADER(&now.header), now.plot, PLOTASK_WORDS, 2, PLOTASK_MARK(1), &count);
}

void there_and_back_by_hand(void)
{
    refusal = !replace_null(&now.header, now.plot, PLOTASK_WORDS, 1, PLOTASK_MARK(2));
    refusal |= !replace_null(&now.header, now.plot, PLOTASK_WORDS, 2, PLOTASK_MARK(1));
}

void there_and_back_reference(void)
{
    refusal = ref_substitute(PLOTASK_HEADER(&now.header), now.plot, PLOTASK_WORDS, 1, PLOTASK_MARK(2), &count);
    refusal |= ref_substitute(PLOTASK_HEADER(&now.header), now.plot, PLOTASK_WORDS, 2, PLOTASK_MARK(1), &count);
}

/* The log and its length. */
#define FILL_LOG fill_log, PLOTASK_ENTRY_WORDS, &fill_log_used

void logged_and_undone(void)
{
    refusal =
        build->substitute_logged(HEADER(&now.header), now.plot, PLOTASK_WORDS, FILL_LOG, 1, PLOTASK_MARK(2), &count);
    refusal |= build->undo(HEADER(&now.header), now.plot, PLOTASK_WORDS, FILL_LOG, &count);
}

void logged_and_undone_by_hand(void)
{
    refusal = replace_null_logged(&now.header, now.plot, PLOTASK_WORDS, FILL_LOG, 1, PLOTASK_MARK(2), &count);
    refusal |= undo_fill(&now.header, now.plot, PLOTASK_WORDS, FILL_LOG, &count);
}

void logged_and_undone_reference(void)
{
    refusal = ref_substitute_logged(PLOTASK_HEADER(&now.header), now.plot, PLOTASK_WORDS, FILL_LOG, 1, PLOTASK_MARK(2),
                                    &count);
    refusal |= ref_undo(PLOTASK_HEADER(&now.header), now.plot, PLOTASK_WORDS, FILL_LOG, &count);
}

/* The words in use after the last logged fill. */
static size_t entry_words;

void substitute_logged(void)
{
    uint32_t null = next_null();
    fill_log_used = 0;
    refusal = build->substitute_logged(HEADER(&now.header), now.plot, PLOTASK_WORDS, FILL_LOG, null,
                                       PLOTASK_MARK(3 - null), &count);
    entry_words = fill_log_used;
}

void undo(void)
{
    fill_log_used = entry_words;
    refusal = build->undo(HEADER(&now.header), now.plot, PLOTASK_WORDS, FILL_LOG, &count);
}

void null_counts(void)
{
    refusal = build->null_counts(HEADER(&now.header), now.plot, PLOTASK_WORDS, counts, PLOTASK_MARKS, &count);
}

void null_counts_by_hand(void)
{
    refusal = !count_nulls(&now.header, now.plot, PLOTASK_WORDS, counts);
}

void null_counts_reference(void)
{
    refusal = ref_null_counts(PLOTASK_HEADER(&now.header), now.plot, PLOTASK_WORDS, counts, PLOTASK_MARKS, &count);
}

/* The prepared header takes the inserted row back. */
static struct plotask_header prepared;

void insert(void)
{
    refusal = build->insert(HEADER(&now.header), now.plot, PLOTASK_WORDS, 0, row, now.header.arities[0]);
    now.header = prepared;
}

void insert_by_hand(void)
{
    refusal = !insert_row(&now.header, now.plot, PLOTASK_WORDS, 0, row, now.header.arities[0]);
    now.header = prepared;
}

void insert_reference(void)
{
    refusal = ref_insert(PLOTASK_HEADER(&now.header), now.plot, PLOTASK_WORDS, 0, row, now.header.arities[0]);
    now.header = prepared;
}

void must(int holds, const char *what)
{
    if (holds)
        return;
    fprintf(stderr, "bench: %s\n", what);
    exit(1);
}

void must_do(work *piece)
{
    piece();
    must(refusal == PLOTASK_DONE, "a call is refused");
}

static void must_list(listing *list_range, const uint32_t *range, size_t count)
{
    must(list_range(&now.header, now.plot, now.query, now.query_words, list) == count, "another range by hand");
    must(memcmp(list, range, count * sizeof *list) == 0, "another range by hand");
}

void check_listing(void)
{
    static uint32_t range[PLOTASK_LIST_WORDS];

    make_plot(&now, PLOTASK_COLUMNS, FULL_ROWS, FEW_VALUES);
    ask_named(&now);
    must_do(ask);
    must(count == FEW_VALUES + 2, "the constants of a query are not in its range");
    memcpy(range, list, sizeof range);
    must_list(list_by_scan, range, FEW_VALUES + 2);
    must_list(list_by_table, range, FEW_VALUES + 2);
}

/* A row that is entered by hand is counted: the library, which tests the counts, takes the plot that it leaves. */
static void check_insert_by_hand(void)
{
    refusal = !insert_row(&now.header, now.plot, PLOTASK_WORDS, 0, row, now.header.arities[0]);
    must(refusal == PLOTASK_DONE, "a row is refused by hand");
    must_do(null_counts);
    now.header = prepared;
}

void prepare_calls(uint32_t columns, uint32_t rows)
{
    uint32_t cell = 0;

    make_plot(&now, columns, rows, PLOTASK_CELLS);
    for (uint32_t at = 0; at < now.header.used; at += 1 + columns)
        for (uint32_t column = 1; column <= columns; column++)
            if (cell++ % PLOTASK_COLUMNS == 0)
                now.plot[at + column] = PLOTASK_MARK(1);
    prepared = now.header;
    null_to_replace = 2;
    fill_log_used = 0;
    must_do(encode);
    card_bytes = count;
    memcpy(card, written, card_bytes);
    must_do(decode_by_hand);
    must(memcmp(&read_header, &now.header, sizeof read_header) == 0, "a header decoded by hand differs");
    must(memcmp(read_plot, now.plot, now.header.used * sizeof *now.plot) == 0, "a card decoded by hand differs");
    must_do(encode_by_hand);
    must(memcmp(card, written, card_bytes) == 0, "a card encoded by hand differs");
    if (now.header.used + 1 + columns <= PLOTASK_WORDS)
        check_insert_by_hand();
}

/* A logged fill leaves the same plot and log by hand as by the library, and each is undone. */
static void check_logged_by_hand(void)
{
    static uint32_t plot[PLOTASK_WORDS], filled[PLOTASK_WORDS], entry[PLOTASK_ENTRY_WORDS];
    size_t bytes = now.header.used * sizeof *plot;

    memcpy(plot, now.plot, bytes);
    must_do(substitute_logged);
    memcpy(filled, now.plot, bytes);
    memcpy(entry, fill_log, entry_words * sizeof *entry);
    must_do(undo);
    must(memcmp(plot, now.plot, bytes) == 0, "an undone plot differs");
    refusal = replace_null_logged(&now.header, now.plot, PLOTASK_WORDS, FILL_LOG, 1, PLOTASK_MARK(2), &count);
    must(refusal == PLOTASK_DONE && memcmp(filled, now.plot, bytes) == 0, "a plot filled by hand differs");
    must(fill_log_used == entry_words && memcmp(entry, fill_log, entry_words * sizeof *entry) == 0,
         "a log by hand differs");
    refusal = undo_fill(&now.header, now.plot, PLOTASK_WORDS, FILL_LOG, &count);
    must(refusal == PLOTASK_DONE && memcmp(plot, now.plot, bytes) == 0, "a plot undone by hand differs");
}

void prepare_fills(uint32_t columns, uint32_t rows, uint32_t step)
{
    uint32_t cell = 0;

    make_plot(&now, columns, rows, PLOTASK_CELLS);
    for (uint32_t at = 0; at < now.header.used; at += 1 + columns)
        for (uint32_t column = 1; column <= columns; column++)
            if (++cell % step == 0)
                now.plot[at + column] = PLOTASK_MARK(1);
    null_to_replace = 2;
    check_logged_by_hand();
}
