// A small generator of numbers (splitmix64): the same seed gives the same files everywhere.
// For that to hold, no expression may draw twice unless its parts have an order; which side
// of an assignment or which argument comes first is the compiler's choice.
#ifndef PEER_PRNG_H
#define PEER_PRNG_H

#include <stdbool.h>
#include <stdint.h>

struct prng {
    uint64_t state;
};

static inline uint64_t draw(struct prng *prng)
{
    uint64_t z = prng->state += 0x9e3779b97f4a7c15u;
    z = (z ^ (z >> 30)) * 0xbf58476d1ce4e5b9u;
    z = (z ^ (z >> 27)) * 0x94d049bb133111ebu;
    return z ^ (z >> 31);
}

// From `from` to `to`, both included; `from` where the range is empty.
static inline uint32_t between(struct prng *prng, uint32_t from, uint32_t to)
{
    return to <= from ? from : from + (uint32_t)(draw(prng) % ((uint64_t)to - from + 1));
}

static inline bool chance(struct prng *prng, unsigned percent)
{
    return draw(prng) % 100 < percent;
}

// Small and large magnitudes equally often.
static inline uint32_t between_by_size(struct prng *prng, uint32_t from, uint32_t to)
{
    uint32_t top = between(prng, 0, 20);
    uint32_t high = to >> top;
    return between(prng, from, high > from ? high : from);
}

#endif
