/* The questions that are asked in a session: each is asked again after every change of the plot. */
#ifndef ASKED_H
#define ASKED_H

#include "session.h"

/*
 * Asks a question of a row. Unless it is refused, it is the last of the session's questions from now on; if the same one
 * was asked of the same row in the same manner before, that one goes. Returns null, or why the answer could not be found
 * out.
 */
const char *ask_question(struct session *session, const struct question *question, const struct cells *row,
                         const struct manner *manner, struct answer *answer);

/* Drops each question that has become the same as a later one, as it may if a fill is taken back. */
void drop_repeated(struct session *session);

/* Asks all of the session's questions again. Returns null, or why an answer could not be found out. */
const char *ask_again(struct session *session);

/* Gives a question a name; if another had it, what was asked by it is forgotten. False if there is no room. */
bool name_question(struct session *session, const struct question *question);

/* The question that has this name; null if none has it. */
const struct question *question_by_name(const struct session *session, const char *name);

/* Writes a question's name or text, its row as it is now, and how it was asked. */
void write_asked(const struct session *session, const struct asked *asked, char text[PAGE_LINE]);

#endif
