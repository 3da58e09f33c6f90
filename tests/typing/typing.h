/* A desk (examples/desk) in this process, at which lines are typed. */
#ifndef TYPING_H
#define TYPING_H

#include "desk/desk.h"

extern struct desk desk;

/* Starts the desk anew. */
void start_desk(void);

/* Types a line without its line feed. The answer, ended by 0, is kept until the next line is typed. */
enum line_end type_bytes(const char *bytes, size_t length);
const char *last_answer(void);

/* Notes the desk as it is now; and whether it is, byte by byte, what it was then. */
const struct desk *note_desk(void);
bool is_as_noted(void);

/* Prints bytes with a text before them; of control bytes, only a line feed is printed as it is. */
void print_bytes(const char *what, const char *bytes, size_t length);

#endif
