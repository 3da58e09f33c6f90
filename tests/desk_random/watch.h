/* Random lines typed at the desk, and what has to hold after each of them, whatever it was. */
#ifndef WATCH_H
#define WATCH_H

#include "generators/random.h"

/* Returns false, after it has printed the line and what does not hold. */
bool type_random_lines(struct random *random);

#endif
