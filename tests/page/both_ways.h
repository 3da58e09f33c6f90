/* A question asked in two ways: by the program, which lends a working list, and by the library's call without one. */
#ifndef BOTH_WAYS_H
#define BOTH_WAYS_H

#include "answer.h"
#include "support/input.h"

/* Returns null, or what is wrong: the program does not print a line, or the two lines differ. */
const char *ask_both_ways(const char *program, const struct input *input, struct answer *answer);

#endif
