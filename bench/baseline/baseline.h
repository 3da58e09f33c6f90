/*
 * The library's work written by hand in C, for speed, to compare times with. A query is not decoded here: each is a
 * loop written for it, and only the constants of its nodes are read. Every plot is tested for soundness first, as the
 * library does.
 */
#ifndef BASELINE_H
#define BASELINE_H

#include "plotask.h"

/* For a function with a parameter that is a constant where it is called. */
#define INLINED static inline __attribute__((always_inline))

static inline int is_cell_number(uint32_t number)
{
    return number < PLOTASK_CONSTANTS || number - PLOTASK_FIRST_MARK < PLOTASK_MARKS;
}

int is_sound(const struct plotask_header *header, const uint32_t *plot, size_t plot_words);

/*
 * Lists the plot's values and then the query's constants, each once, in the order in which they first occur, and
 * returns their number.
 */
typedef size_t listing(const struct plotask_header *header, const uint32_t *plot, const uint32_t *query,
                       size_t query_words, uint32_t *list);

listing list_by_scan;  /* searches the list for each cell and constant */
listing list_by_table; /* with a hash table of 16 KiB */

/* The truth of "the row stands in the relation" of a sound plot; what it costs is added to `cost`. */
uint32_t row_stands(const struct plotask_header *header, const uint32_t *plot, uint32_t relation, const uint32_t *row,
                    uint64_t *cost);

/* Each returns 0 if it refuses. All of the card's rules are tested. */
uint32_t decode_card(const uint8_t *card, size_t bytes, struct plotask_header *header, uint32_t *plot,
                     size_t plot_words);
uint32_t encode_card(const struct plotask_header *header, const uint32_t *plot, size_t plot_words, uint8_t *card,
                     size_t bytes);
uint32_t replace_null(const struct plotask_header *header, uint32_t *plot, size_t plot_words, uint32_t null,
                      uint32_t cell);
uint32_t count_nulls(const struct plotask_header *header, const uint32_t *plot, size_t plot_words,
                     uint32_t counts[PLOTASK_MARKS]);
uint32_t insert_row(struct plotask_header *header, uint32_t *plot, size_t plot_words, uint32_t relation,
                    const uint32_t *cells, size_t count);

/* Each returns 0 or the number of its refusal, since an accepted undo may count no cell. */
uint32_t replace_null_logged(const struct plotask_header *header, uint32_t *plot, size_t plot_words, uint32_t *log,
                             size_t log_words, size_t *log_used, uint32_t null, uint32_t cell, uint32_t *count);
uint32_t undo_fill(const struct plotask_header *header, uint32_t *plot, size_t plot_words, const uint32_t *log,
                   size_t log_words, size_t *log_used, uint32_t *count);

#endif
