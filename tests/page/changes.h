/* What is said about the questions asked so far, after the plot has changed and they have been asked again. */
#ifndef CHANGES_H
#define CHANGES_H

#include "expected.h"

/* After a fill. Returns null; or what is wrong, if a verdict was unsettled, since no fill may do that. */
const char *expect_settled(struct expected *expected, const struct session *session);

/* After anything else. Returns the number of verdicts that changed. */
size_t expect_changed(struct expected *expected, const struct session *session);

#endif
