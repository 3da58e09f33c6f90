#include "timing.h"

#include <time.h>

enum { MOST_WORKS = 8, LEAST_ROUNDS = 100 };

/* A round repeats its work until it takes ROUND_NS. There are at least 100 rounds, for SPAN_NS for each piece. */
static const double ROUND_NS = 3e5;
static const double SPAN_NS = 1e8;

/* Processor time, which stops while other programs run. */
static double clock_ns(void)
{
    struct timespec t;

    clock_gettime(CLOCK_PROCESS_CPUTIME_ID, &t);
    return (double)t.tv_sec * 1e9 + (double)t.tv_nsec;
}

static double round_ns(work *piece, unsigned long repeats)
{
    double start = clock_ns();

    for (unsigned long i = 0; i < repeats; i++)
        piece();
    return clock_ns() - start;
}

void times_of(work *const works[], size_t count, double ns[])
{
    unsigned long repeats[MOST_WORKS];

    for (size_t i = 0; i < count; i++) {
        repeats[i] = 1;
        while ((ns[i] = round_ns(works[i], repeats[i])) < ROUND_NS)
            repeats[i] *= 2;
        ns[i] /= (double)repeats[i];
    }
    double start = clock_ns();
    for (int round = 0; round < LEAST_ROUNDS || clock_ns() - start < SPAN_NS * (double)count; round++)
        for (size_t i = 0; i < count; i++) {
            double one = round_ns(works[i], repeats[i]) / (double)repeats[i];
            ns[i] = one < ns[i] ? one : ns[i];
        }
}
