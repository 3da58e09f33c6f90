/* The queries that are timed, as loops in C over the listed values: what sample.h asks as nodes. */
#ifndef LOOPS_H
#define LOOPS_H

#include "work/work.h"

answering nothing_by_hand, row_by_hand, absent_by_hand, pairs_by_hand;

/* ROW_TESTS tests of the candidate and nothing else: the plot is not tested, and its values are not listed. */
work row_tests_by_hand;

#endif
