/* What the numbers of refusals mean, in the crews' words. */
#ifndef REFUSAL_H
#define REFUSAL_H

#include "line.h"

/* Null if there is no such number. */
const char *meaning(uint32_t refusal);

/* The line's fault: a refusal by its number, at a place, with its meaning. Returns false. */
bool refuse_number(struct line *line, size_t at, uint32_t refusal);

#endif
