/*
 * A conversation with the desk about a random plot: its sheets and rows are typed, questions are asked in words and by
 * name, marks are filled and fills taken back. Each answer is compared with that of an account kept by the reference.
 */
#ifndef CONVERSATION_H
#define CONVERSATION_H

#include "generators/random.h"

/* Returns false, after it has printed what went wrong, if an answer is not as expected. */
bool hold_conversation(struct random *random);

#endif
