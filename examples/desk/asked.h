/* The questions asked so far, which are asked again after each change of the plot. */
#ifndef ASKED_H
#define ASKED_H

#include "desk.h"

/* Asks a question of a row, with a working list or without one. */
struct answer ask_plot(const struct plot *plot, const struct asked *asked, const uint32_t *cells);

/* Puts a question at the end, instead of the same one if there is one. If there are too many, the oldest goes. */
void remember(struct desk *desk, struct asked *asked);
/* Drops those with this label, or all if it is null, and returns their number. */
unsigned drop_asked(struct desk *desk, const char *label);
/*
 * After a fill was taken back: a row that was asked about while the fill stood stays as it was typed. Of two questions
 * that have become the same, the earlier one is dropped.
 */
void forget_fill(struct desk *desk);

/* After a fill: asks again, and says what became settled, and that nothing was unsettled if that is so. */
void say_settled(struct desk *desk);
/* After any other change: asks again, says which verdicts changed, and returns their number. */
unsigned say_changes(struct desk *desk);

/* "unknown, 4 looks", or "refused 46". */
void print_answer(FILE *out, const struct answer *answer);
/* The question, its row as it is now, and how it was asked. */
void print_asked(FILE *out, const struct plot *plot, const struct asked *asked);

#endif
