/* A typed line, read from left to right. What is taken is passed over, with the blanks before it. */
#ifndef SCAN_H
#define SCAN_H

#include <stdbool.h>
#include <stdint.h>

enum { NAME_BYTES = 64 };

/* Whether only blanks are left. */
bool scan_end(const char **at);

bool scan_sign(const char **at, char sign);

/* A letter, then letters, digits and _. */
bool scan_name(const char **at, char name[NAME_BYTES]);

/* The same, if it is the given word. */
bool scan_word(const char **at, const char *word);

/* Digits that make a number of 32 bits. */
bool scan_number(const char **at, uint32_t *number);

/* The number in a name that is one letter and a number, such as v3 or m4. */
bool number_in_name(const char *name, char letter, uint32_t *number);

#endif
