// The segment pool's control words and the tree of its index.
#include "twin.h"

// The number of segments, the words of each, and the index: words 1 to s - 1 inner, s to 2s - 1 leaves, then the
// first blocks.
typedef struct {
    size_t words, s;
    uint32_t size;
} shape;

static inline size_t size_of(int32_t v)
{
    return (size_t)(v < 0 ? -(int64_t)v : v);
}

// What a control word counts for in a leaf: a held block counts 1.
static inline uint32_t weight_of(int32_t v)
{
    return v < 0 ? 1 : (uint32_t)v;
}

static inline uint32_t larger(uint32_t a, uint32_t b)
{
    return a < b ? b : a;
}

static inline size_t lesser(size_t a, size_t b)
{
    return a < b ? a : b;
}

static inline shape shape_of(size_t words, uint32_t s)
{
    return (shape){words, s, ((uint32_t)words + s - 1) >> __builtin_ctz(s)};
}

static inline size_t segment_of(shape h, size_t at)
{
    return (uint32_t)at / h.size;
}

static inline size_t segment_end(shape h, size_t k)
{
    return lesser((k + 1) * h.size, h.words);
}

// A leaf gets a new value, and each word above it the larger of its sons. To stop where nothing changes would save
// stores, and cost more in branches that nothing foretells.
static void raise(uint32_t *index, size_t at, uint32_t value)
{
    index[at] = value;
    for (size_t i = at; i > 1; i /= 2) {
        value = larger(value, index[i ^ 1]);
        index[i / 2] = value;
    }
}

// The lowest leaf that is at least n, where the root is.
static size_t descend(const uint32_t *index, size_t s, uint32_t n)
{
    size_t i = 1;
    while (i < s) {
        i = 2 * i;
        i += index[i] < n;
    }
    return i;
}

// The last leaf before leaf i that is not 0: up while the word to the left is 0; then down, right where the right word
// is not 0.
static size_t last_before(const uint32_t *index, size_t s, size_t i)
{
    while (index[i - 1] == 0)
        i /= 2;
    i--;
    while (i < s) {
        i = 2 * i + 1;
        i -= index[i] == 0;
    }
    return i;
}

// Segment k is brought up to date from its first block on, or the first block past it where it has none.
static void refresh(const int32_t *v, uint32_t *index, shape h, size_t k, size_t from)
{
    size_t hi = segment_end(h, k);
    uint32_t most = 0;
    for (size_t at = from; at < hi; at += size_of(v[at]))
        most = larger(most, weight_of(v[at]));
    index[2 * h.s + k] = (uint32_t)(from < hi ? from : h.words);
    raise(index, h.s + k, most);
}
