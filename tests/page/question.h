/* A question in words, such as `some(x, and(in(store, x), not(equal(x, v0))))`, as plotask's nodes. */
#ifndef QUESTION_H
#define QUESTION_H

#include "plotask.h"
#include "sheets.h"

#include <stddef.h>

/*
 * Reads the question that the text starts with, passes over it and writes its words. Returns their number; 0 if there
 * is no question, if it names a sheet or a value in turn that there is not, or if it has more than 100 nodes. What
 * plotask refuses by a number is read: a sheet's number that is too high, and numbers that are no term.
 */
size_t scan_question(const char **at, const struct sheets *sheets, uint32_t words[PLOTASK_QUERY_WORDS]);

/* Whether a question that was read is plain: `in`, `equal`, `and`, `or` and `some` alone. */
bool is_plain(const uint32_t *words, size_t length);

#endif
