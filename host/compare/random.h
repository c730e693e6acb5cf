/* random.h: random numbers that a seed determines. */
#ifndef RANDOM_H
#define RANDOM_H

#include <stdint.h>

struct random {
    uint64_t state;
};

static inline uint64_t random_word(struct random *r)
{
    uint64_t word = r->state += 0x9E3779B97F4A7C15u;
    word = (word ^ word >> 30) * 0xBF58476D1CE4E5B9u;
    word = (word ^ word >> 27) * 0x94D049BB133111EBu;
    return word ^ word >> 31;
}

/* A number from 0 to bound - 1. */
static inline unsigned below(struct random *r, unsigned bound)
{
    return (unsigned)(random_word(r) % bound);
}

/* True once in so many times. */
static inline int once_in(struct random *r, unsigned times)
{
    return below(r, times) == 0;
}

#endif
