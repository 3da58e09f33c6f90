/* Files for the lines that load and save, in the working directory. */
#ifndef CARD_FILES_H
#define CARD_FILES_H

#include "generators/random.h"

/* The card of a conversation. The others are for random lines. */
#define CARD_OF_TALK "talk.card"

/* Removes the cards that were saved, so that a round does not depend on those before it. */
void forget_saved(void);

/* A card that was saved, a new one, which may be damaged or too large, a file that is missing, or a folder. */
const char *file_to_load(struct random *random);
/* A card of as many rows of six columns as a plot has room for, with one mark in every cell. */
const char *file_of_one_mark(struct random *random);
/* A file that can be written, or one that cannot. */
const char *file_to_save(struct random *random);

/* Whether a line of the commands load and save names one of the files for random lines, or none at all. */
bool names_card_file(const char *bytes, size_t length);

#endif
