/* SPDX-License-Identifier: GPL-2.0-or-later */
/* Numbers that look random and are the same for the same seed (xorshift64*). */
#ifndef RANDOM_H
#define RANDOM_H

#include <stdint.h>

/* The generator's state of a seed; a state of 0 would stay 0. */
static inline uint64_t random_from(uint64_t seed)
{
    return (seed * 0x9e3779b97f4a7c15u + 0x853c49e6748fea9bu) | 1;
}

/* The next number below a limit. */
static inline uint32_t random_below(uint64_t *state, uint32_t limit)
{
    *state ^= *state >> 12;
    *state ^= *state << 25;
    *state ^= *state >> 27;
    return (uint32_t)((*state * 0x2545f4914f6cdd1du) >> 32) % limit;
}

#endif
