/* Numbers drawn from a seed. */
#ifndef DRAWS_H
#define DRAWS_H

#include <stdint.h>

/* Splitmix64. */
static inline uint64_t drawn(uint64_t *state)
{
    uint64_t mixed = *state += 0x9E3779B97F4A7C15u;
    mixed = (mixed ^ (mixed >> 30)) * 0xBF58476D1CE4E5B9u;
    mixed = (mixed ^ (mixed >> 27)) * 0x94D049BB133111EBu;
    return mixed ^ (mixed >> 31);
}

static inline uint32_t below(uint64_t *state, uint32_t limit)
{
    return (uint32_t)(drawn(state) % limit);
}

#endif
