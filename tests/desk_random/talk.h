/* A conversation as it goes: what was said so far, and the line that is typed next. */
#ifndef DESK_TALK_H
#define DESK_TALK_H

#include "account.h"
#include "tally.h"

struct talk {
    struct random *random;
    struct palette palette;
    struct account account;
    char line[2 * TEXT_ROOM];
    size_t length;
};

/* Starts a line; adds to it. Both return where the text stands. */
__attribute__((format(printf, 2, 3))) size_t start_line(struct talk *talk, const char *format, ...);
__attribute__((format(printf, 2, 3))) size_t put(struct talk *talk, const char *format, ...);
/* Adds a space and a cell, or a number that is none; returns where the cell stands. */
size_t put_cell(struct talk *talk, uint32_t cell);

/*
 * Types the line. It has to be answered as the account says, or be refused with a number at a place, with a text before
 * and after its meaning, and the desk has to hold the account's plot. False, after it has printed why, if not so.
 */
bool type_accepted(struct talk *talk);
bool type_refused(struct talk *talk, uint32_t number, size_t at, const char *before, const char *after);
/* The same for a word of a question: of 24, what it means depends on the word. */
bool type_refused_word(struct talk *talk, uint32_t number, size_t at, const char *before, const struct spelled *word);

/* Each types one line or a few, and returns whether all was as expected. */
bool try_question(struct talk *talk);
bool try_row(struct talk *talk);
bool try_fill(struct talk *talk);
bool try_take_back(struct talk *talk);
bool try_card(struct talk *talk);

#endif
