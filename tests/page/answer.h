/* What plotask says to a question: a verdict and its looks, or the number of a refusal. */
#ifndef ANSWER_H
#define ANSWER_H

#include <stdbool.h>
#include <stdint.h>

enum { ANSWER_BYTES = 48 };

struct answer {
    char word[8];    /* true, false, unknown or refused */
    uint32_t number; /* the looks, or the number of the refusal */
};

/* Reads the program's line, without its line feed, such as `unknown 4`. */
bool read_answer(const char *line, struct answer *answer);

/* Writes it as the desk does, such as `unknown, 4 looks`. */
void write_answer(const struct answer *answer, char text[ANSWER_BYTES]);

struct answer refusal(uint32_t number);

bool is_refused(const struct answer *answer);
bool is_settled(const struct answer *answer);

/* Whether two answers are the same apart from their looks. */
bool same_verdict(const struct answer *left, const struct answer *right);

/* Whether a text is an answer as the desk writes it, or a verdict alone. */
bool is_answer_text(const char *text);

#endif
