/*
 * A second implementation of document 01, and of document 02's log, charge for a row, asking with no working list,
 * values named in the question and row counts, written from these documents alone. The tests compare the library with
 * it; the two share no code. Each call is named after the library's, returns 0 or the number of a refusal, and takes a
 * slice as a pointer and a length.
 *
 * Names are the field's. Document 01 says head, sheet and column count for header, relation and arity; inked value and
 * mark for constant and null; question, verdict, looks and allowance for query, truth, cost and budget; reading,
 * writing, entering, fill and census for decode, encode, insert, substitute and null counts; noting and taking back for
 * logging and undo, a note for an entry of the log; the book for the model.
 */
#ifndef REFERENCE_H
#define REFERENCE_H

#include "header.h"

#include <stdbool.h>

/* The kinds of a query's nodes. */
enum kind { ROW_STANDS = 1, EQUAL = 2, NOT = 3, AND = 4, OR = 5, SOME = 6, EVERY = 7 };

enum truth { TRUTH_FALSE = 0, TRUTH_UNKNOWN = 1, TRUTH_TRUE = 2 };

uint32_t ref_decode(const uint8_t *card, size_t card_length, uint32_t *header, size_t header_length, uint32_t *words,
                    size_t length, size_t *log_used);
uint32_t ref_encode(const uint32_t *header, size_t header_length, const uint32_t *words, size_t length, uint8_t *card,
                    size_t card_length, uint32_t *count);
uint32_t ref_insert(uint32_t *header, size_t header_length, uint32_t *words, size_t length, uint32_t relation,
                    const uint32_t *cells, size_t cell_count);
uint32_t ref_substitute(const uint32_t *header, size_t header_length, uint32_t *words, size_t length, uint32_t null,
                        uint32_t cell, uint32_t *count);
uint32_t ref_substitute_logged(const uint32_t *header, size_t header_length, uint32_t *words, size_t length,
                               uint32_t *log, size_t log_length, size_t *log_used, uint32_t null, uint32_t cell,
                               uint32_t *count);
uint32_t ref_undo(const uint32_t *header, size_t header_length, uint32_t *words, size_t length, const uint32_t *log,
                  size_t log_length, size_t *log_used, uint32_t *count);
uint32_t ref_null_counts(const uint32_t *header, size_t header_length, const uint32_t *words, size_t length,
                         uint32_t *counts, size_t counts_length, uint32_t *count);
uint32_t ref_ask(const uint32_t *header, size_t header_length, const uint32_t *words, size_t length,
                 const uint32_t *query, size_t query_length, const uint32_t *candidate, size_t candidate_length,
                 uint32_t *list, size_t list_length, uint32_t budget, uint32_t *truth, uint32_t *cost);
uint32_t ref_ask_unlisted(const uint32_t *header, size_t header_length, const uint32_t *words, size_t length,
                          const uint32_t *query, size_t query_length, const uint32_t *candidate,
                          size_t candidate_length, uint32_t budget, uint32_t *truth, uint32_t *cost);

/* The program plotask: the line that it prints for these input bytes, with its line feed. */
void ref_line(const uint8_t *input, size_t length, char line[LINE_BYTES]);
/* The same line by the given calls, the library's or the reference's, with no working list. */
void line_by(__typeof__(ref_decode) *decode, __typeof__(ref_ask_unlisted) *ask, const uint8_t *input, size_t length,
             char line[LINE_BYTES]);

/* The model of "Run A and run B": A's rows and candidate, and the substitutions made in both, logged or not. */
struct model {
    uint32_t header[HEADER_WORDS];
    uint32_t words[MOST_WORDS];
    uint32_t candidate[MOST_COLUMNS];
    size_t candidate_length;
};

void model_open(struct model *model, const uint32_t header[HEADER_WORDS], const uint32_t *words,
                const uint32_t *candidate, size_t candidate_length);
/* What the model is fed of the log of a logged substitution. */
struct log_size {
    size_t length;
    size_t used;
};

/* The log is null for a substitution that is not logged. */
uint32_t model_substitute(struct model *model, const struct log_size *log, uint32_t null, uint32_t cell,
                          uint32_t *count);
bool model_holds_a_null(const struct model *model);

/*
 * Two-valued logic on the model, for a query that was accepted there. Nothing stops early, so the caller first asks how
 * many leaves it would visit (UINT64_MAX if they are too many to count).
 */
uint64_t two_valued_leaves(const struct model *model, const uint32_t *query, size_t query_length);
bool two_valued_yes(const struct model *model, const uint32_t *query, size_t query_length);
/* The same over the plot's values alone: what it would say if the constants that the query names were not in range. */
bool two_valued_yes_unnamed(const struct model *model, const uint32_t *query, size_t query_length);

#endif
