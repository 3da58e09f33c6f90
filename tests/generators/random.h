/* Numbers that follow from a seed (splitmix64), so that a failed round can be run again. */
#ifndef RANDOM_H
#define RANDOM_H

#include <stdbool.h>
#include <stddef.h>
#include <stdint.h>

struct random {
    uint64_t state;
};

static inline uint64_t random_bits(struct random *random)
{
    uint64_t bits = random->state += 0x9e3779b97f4a7c15;
    bits = (bits ^ bits >> 30) * 0xbf58476d1ce4e5b9;
    bits = (bits ^ bits >> 27) * 0x94d049bb133111eb;
    return bits ^ bits >> 31;
}

/* The numbers of one round of a seed. */
static inline struct random random_of_round(uint64_t seed, uint64_t round)
{
    struct random random = {seed};
    random.state = random_bits(&random) + round;
    return random;
}

/* A number from 0 to limit - 1. */
static inline uint32_t below(struct random *random, size_t limit)
{
    return (uint32_t)(random_bits(random) % limit);
}

static inline bool one_in(struct random *random, size_t limit)
{
    return below(random, limit) == 0;
}

#endif
