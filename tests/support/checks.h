/* The checks of one test program: how many passed, and how many failed. */
#ifndef CHECKS_H
#define CHECKS_H

#include <stdbool.h>

#ifdef __cplusplus
extern "C" {
#endif

/* Counts one check, and returns whether it passed. */
bool check(bool holds);

/* Prints the total, 'N passed, M failed', and returns the program's exit status. */
int finish_checks(void);

#ifdef __cplusplus
}
#endif

#endif
