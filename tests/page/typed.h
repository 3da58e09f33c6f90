/*
 * A typed line: what it does in the session, and the lines that should answer it.
 *
 *   new                                        forgets everything
 *   sheet NAME COLUMN..                        a new sheet
 *   NAME CELL..                                a row of that sheet; a blank gets a mark of its own
 *   fill mN CELL                               a logged fill, also in the rows that were asked about
 *   take back                                  its undo, also there
 *   question NAME: QUESTION                    a question gets a name
 *   ask QUESTION CELL.. [within N] [unlisted]  a question, in words or by its name, is asked of a row
 *   show, census, questions, help, ?           passed over
 */
#ifndef TYPED_H
#define TYPED_H

#include "expected.h"

/* The line has no comment. Returns null, or why it cannot be read or answered. */
const char *obey(struct session *session, const char *line, struct expected *expected);

#endif
