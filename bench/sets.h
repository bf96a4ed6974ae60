/* Sets of atoms. */
#ifndef SETS_H
#define SETS_H

#include "plain.h"
#include <stdbool.h>

static inline set one(unsigned atom)
{
    return atom < 64 ? (set){1ull << atom, 0} : (set){0, 1ull << (atom - 64)};
}

static inline bool is_empty(set a)
{
    return (a.low | a.high) == 0;
}

static inline bool equal(set a, set b)
{
    return a.low == b.low && a.high == b.high;
}

static inline bool meets(set a, set b)
{
    return ((a.low & b.low) | (a.high & b.high)) != 0;
}

static inline bool contains(set a, set part)
{
    return ((part.low & ~a.low) | (part.high & ~a.high)) == 0;
}

static inline set with(set a, set b)
{
    return (set){a.low | b.low, a.high | b.high};
}

static inline set without(set a, set b)
{
    return (set){a.low & ~b.low, a.high & ~b.high};
}

static inline unsigned lowest(set a)
{
    return a.low ? (unsigned)__builtin_ctzll(a.low) : 64u + (unsigned)__builtin_ctzll(a.high);
}

static inline unsigned highest(set a)
{
    return a.high ? 127u - (unsigned)__builtin_clzll(a.high) : 63u - (unsigned)__builtin_clzll(a.low);
}

#endif
