/*
 * Each call made twice, of the library and of the reference, on copies of the same input. Results and every lent word
 * and byte have to agree, and a refused call has to leave what it was lent; otherwise the program ends. The given plot
 * and log are then what the library left. Each returns the call's number.
 */
#ifndef COMPARE_H
#define COMPARE_H

#include "generators/generate.h"
#include "tally.h"

/* The log's words in use are any number before. */
uint32_t both_decode(struct any_plot *plot, const struct any_card *card, size_t *log_used);
uint32_t both_insert(struct any_plot *plot, uint32_t relation, const struct any_cells *cells);
uint32_t both_substitute(struct any_plot *plot, uint32_t null, uint32_t cell, uint32_t *count);
uint32_t both_substitute_logged(struct any_plot *plot, struct any_log *log, uint32_t null, uint32_t cell,
                                uint32_t *count);
uint32_t both_undo(struct any_plot *plot, struct any_log *log, uint32_t *count);
uint32_t both_null_counts(struct any_plot *plot, const uint32_t *output, size_t output_length);
/* The card is the lent output before, and the written card after. */
uint32_t both_encode(struct any_plot *plot, struct any_card *card, uint32_t *count);
/*
 * Asks with a working list, which starts with arbitrary content, and without one. The two ways have to agree; if the
 * list is too short, the unlisted one has to agree with a further ask that has a list long enough. What is returned and
 * written is what the given length of the list leads to.
 */
uint32_t both_ask(struct any_plot *plot, const struct any_query *query, const struct any_cells *candidate,
                  size_t list_length, uint32_t budget, uint32_t *truth, uint32_t *cost);

/* Says what is wrong, in which seed, round and call, with all that was lent; then ends the program. */
_Noreturn void fail(const char *what);
/* Names the round that fail tells of. */
void begin_round(uint64_t seed, uint64_t round);

#endif
