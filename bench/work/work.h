/* The work that is measured: each call by the library, by C written by hand (baseline.h), and by the reference. */
#ifndef WORK_H
#define WORK_H

#include "build.h"
#include "measure/timing.h"
#include "sample.h"

/* What all work reads. */
extern struct sample now;

/* The build that does the library's work: the one without a prefix, until another is chosen. */
extern const struct build *build;

/* What the last work returned: a refusal; if that is 0, the truth and cost of a query, or the count of another call. */
extern uint32_t refusal, truth, count;

/* A query as a loop in C: its truth over the listed range, and its cost. Set before ask_scanning and ask_hashing. */
typedef uint32_t answering(const uint32_t *values, size_t count, uint64_t *cost);
extern answering *by_hand;

/* A query with a budget of 100, which it exceeds. */
work ask_refused;

/* `0 = 0`, and the last node of the query by itself, whatever else the query asks. */
work ask_zero, ask_last_node;

/* The same query as ask, with no working list. */
work ask_unlisted;

work ask, ask_scanning, ask_hashing, ask_reference;
work decode, decode_by_hand, decode_reference;
work encode, encode_by_hand, encode_reference;
work substitute, substitute_by_hand, substitute_reference;
work null_counts, null_counts_by_hand, null_counts_reference;
work insert, insert_by_hand, insert_reference;

/* Null 1 is replaced by null 2 and put back: by a logged fill and its undo, or by two fills that are not logged. */
work logged_and_undone, logged_and_undone_by_hand, logged_and_undone_reference;
work there_and_back, there_and_back_by_hand, there_and_back_reference;

/* The two calls by themselves: a logged fill with a fresh log, and the undo of its entry, again and again. */
work substitute_logged, undo;

/* Ends the program unless the range is listed by hand as by the library, for a query with constants. */
void check_listing(void);

/* A plot of this many rows, with null 1 in the first of every six cells, to replace, and its card to decode. */
void prepare_calls(uint32_t columns, uint32_t rows);

/* A plot of this many rows, with null 1 in the last of every `step` cells, to replace and put back. */
void prepare_fills(uint32_t columns, uint32_t rows, uint32_t step);

/* Ends the program if something does not hold, and says what. */
void must(int holds, const char *what);

/* Runs work once; the program ends if it is refused. */
void must_do(work *piece);

#endif
