/*
 * Lines typed at the desk, and what it should answer.
 *
 * An answer is given without its last line feed; "" stands for no answer at all. In a line that should be refused, ^
 * stands before the place at which it is at fault, and is not typed. A refused line must not change a byte of the desk.
 */
#ifndef TALK_H
#define TALK_H

#include "typing/typing.h"

/* Starts a desk anew and types lines, which have to be accepted, whatever their answer. */
#define START(...) start_with((const char *const[]){__VA_ARGS__, NULL})
void start_with(const char *const *lines);
/* Types one more such line. */
void type(const char *line);

void says(const char *line, const char *answer);
void says_bytes(const char *bytes, size_t length, const char *answer);
/* The line ends the desk. */
void ends(const char *line);

/* The line is refused for a number: "refused 27, column 6: ", its meaning, and something before and after that. */
void refuses(const char *line, uint32_t number);
void refuses_with(const char *line, uint32_t number, const char *before, const char *after);
/* The desk cannot do what the line says: "not done, column 6: " and a text. */
void not_done(const char *line, const char *text);
void not_done_bytes(const char *bytes, size_t length, size_t column, const char *text);
/* It expected something else there: "expected X, found Y", where Y is a word or a sign, or the line's end. */
#define END NULL
void misses(const char *line, const char *expected, const char *found);

/* Lines that are such. */
struct misread {
    const char *line;
    const char *expected;
    const char *found;
};

void misses_each(const struct misread *lines, size_t count);

/* As not_done, whatever the place and the text. */
void cannot_read(const char *line);

/* A check with what it is about. */
void expect(const char *what, bool holds);

/* Writes copies of a text one after the other, ended by 0; returns where they end. */
char *repeat(char *to, const char *text, size_t times);

#define COUNT_OF(array) (sizeof(array) / sizeof *(array))

#endif
