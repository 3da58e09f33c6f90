/* The typed lines about questions, from what follows the command on. Each returns null, or what is wrong. */
#ifndef QUESTION_LINES_H
#define QUESTION_LINES_H

#include "expected.h"

const char *obey_question(struct session *session, const char *rest, struct expected *expected);
const char *obey_ask(struct session *session, const char *rest, struct expected *expected);

#endif
