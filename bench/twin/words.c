// Loops over words, in both shapes.
#include "twin.h"

enum { BLOCK = 256 };

#if TWIN_EXIT

static bool zero_words(const uint32_t *s, size_t n)
{
    for (size_t i = 0; i < n; i++)
        if (s[i] != 0)
            return false;
    return true;
}

static bool none_is(const uint32_t *s, size_t n, uint32_t x)
{
    for (size_t i = 0; i < n; i++)
        if (s[i] == x)
            return false;
    return true;
}

#else

static inline uint32_t any_bit(const uint32_t *s, size_t n)
{
    uint32_t any = 0;
    for (size_t i = 0; i < n; i++)
        any |= s[i];
    return any;
}

static bool zero_words(const uint32_t *s, size_t n)
{
    for (; n >= BLOCK; s += BLOCK, n -= BLOCK)
        if (any_bit(s, BLOCK) != 0)
            return false;
    return any_bit(s, n) == 0;
}

static bool none_is(const uint32_t *s, size_t n, uint32_t x)
{
    uint32_t equal = 0;
    for (size_t i = 0; i < n; i++)
        equal |= s[i] == x;
    return equal == 0;
}

#endif
