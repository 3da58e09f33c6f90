/* The lines that should answer a typed line: what it did, a line for each question asked so far, and a last one. */
#ifndef EXPECTED_H
#define EXPECTED_H

#include "session.h"

enum { MOST_LINES = MOST_QUESTIONS + 2 };

struct expected_line {
    char text[PAGE_LINE];
    bool is_start; /* the page's line goes on after it */
};

struct expected {
    bool is_checked; /* if not, any lines will do */
    bool is_ask;
    struct expected_line lines[MOST_LINES];
    size_t count;
};

__attribute__((format(printf, 2, 3))) void expect_line(struct expected *expected, const char *format, ...);

/* Expects a line that starts with a refusal and its column. */
void expect_refused(struct expected *expected, uint32_t number);

/* Expects the answer to a question: a verdict, its looks and what is said after them, or a refusal. */
void expect_answer(struct expected *expected, const struct answer *answer, bool is_plain);

/* Whether the page's line is the expected one. */
bool is_expected(const struct expected_line *line, const char *text);

#endif
