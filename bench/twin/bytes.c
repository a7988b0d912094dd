// Loops over the bytes of a map of units, or of a buffer, in both shapes.
#include "twin.h"

#if TWIN_EXIT

static bool zero_bytes(const uint8_t *s, size_t n)
{
    for (size_t i = 0; i < n; i++)
        if (s[i] != 0)
            return false;
    return true;
}

#if !TWIN_TILES
static bool no_zero_bytes(const uint8_t *s, size_t n)
{
    for (size_t i = 0; i < n; i++)
        if (s[i] == 0)
            return false;
    return true;
}
#endif

#else

static inline uint8_t any_bit_of_bytes(const uint8_t *s, size_t n)
{
    uint8_t any = 0;
    for (size_t i = 0; i < n; i++)
        any |= s[i];
    return any;
}

static bool zero_bytes(const uint8_t *s, size_t n)
{
    for (; n >= BLOCK; s += BLOCK, n -= BLOCK)
        if (any_bit_of_bytes(s, BLOCK) != 0)
            return false;
    return any_bit_of_bytes(s, n) == 0;
}

#if !TWIN_TILES
// The map holds 0 and 1 alone, so the bytes are all 1 exactly if their bits together are.
static bool no_zero_bytes(const uint8_t *s, size_t n)
{
    uint8_t all = 1;
    for (size_t i = 0; i < n; i++)
        all &= s[i];
    return all != 0;
}
#endif

#endif
