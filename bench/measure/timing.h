/* Times of pieces of work that are to be compared. */
#ifndef TIMING_H
#define TIMING_H

#include <stddef.h>

typedef void work(void);

/*
 * Writes the time of each piece, at most 8, in nanoseconds. Each round runs all of them, one after the other, and a
 * time is the least of all rounds, so that whatever else the machine does affects all alike.
 */
void times_of(work *const works[], size_t count, double ns[]);

#endif
