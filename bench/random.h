/* splitmix64: a small source of random words, and any starting state is a good one. No expression draws
 * twice in an order that C leaves open, so that a case is the same with every compiler. */
#ifndef RANDOM_H
#define RANDOM_H

#include <stdbool.h>
#include <stddef.h>
#include <stdint.h>

struct random {
    uint64_t state;
};

static inline uint64_t random_word(struct random *r)
{
    uint64_t z = r->state += 0x9E3779B97F4A7C15u;
    z = (z ^ (z >> 30)) * 0xBF58476D1CE4E5B9u;
    z = (z ^ (z >> 27)) * 0x94D049BB133111EBu;
    return z ^ (z >> 31);
}

static inline size_t random_below(struct random *r, size_t bound)
{
    return random_word(r) % bound;
}

static inline size_t random_between(struct random *r, size_t low, size_t high)
{
    return low + random_below(r, high - low + 1);
}

static inline bool one_in(struct random *r, size_t bound)
{
    return random_below(r, bound) == 0;
}

#endif
