/* A small generator of numbers (splitmix64). The same seed gives the same numbers on every machine. */
#ifndef RANDOM_H
#define RANDOM_H

#include <stdbool.h>
#include <stddef.h>
#include <stdint.h>

typedef struct {
    uint64_t state;
} Random;

static inline uint64_t next_number(Random *random)
{
    uint64_t mixed = random->state += 0x9e3779b97f4a7c15u;
    mixed = (mixed ^ (mixed >> 30)) * 0xbf58476d1ce4e5b9u;
    mixed = (mixed ^ (mixed >> 27)) * 0x94d049bb133111ebu;
    return mixed ^ (mixed >> 31);
}

/* A number below `end`, which is not 0. */
static inline size_t below(Random *random, size_t end)
{
    return (size_t)(next_number(random) % end);
}

/* True once in `times`. */
static inline bool once_in(Random *random, size_t times)
{
    return below(random, times) == 0;
}

/* The generator of one case, which depends on no other case. */
static inline Random random_of(uint64_t seed, uint64_t kind, uint64_t number)
{
    Random random = {seed};
    random.state ^= next_number(&random) + kind;
    random.state ^= next_number(&random) + number;
    random.state = next_number(&random);
    return random;
}

#endif
