/* Numbers from the command line. */
#ifndef ARGUMENTS_H
#define ARGUMENTS_H

#include <stdint.h>
#include <stdlib.h>

/* The argument at an index, or `otherwise` if there are not as many. */
static inline uint64_t number_argument(int count, char **arguments, int index, uint64_t otherwise)
{
    return index < count ? strtoull(arguments[index], NULL, 10) : otherwise;
}

#endif
