/* The typed lines that change the plot, from what follows the command on. Each returns null, or what is wrong. */
#ifndef PLOT_LINES_H
#define PLOT_LINES_H

#include "expected.h"

const char *obey_sheet(struct session *session, const char *rest, struct expected *expected);
const char *obey_row(struct session *session, uint32_t sheet, const char *rest, struct expected *expected);
const char *obey_fill(struct session *session, const char *rest, struct expected *expected);
const char *obey_take_back(struct session *session, const char *rest, struct expected *expected);

#endif
