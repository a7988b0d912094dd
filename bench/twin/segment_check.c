// The segment pool's soundness check, over any memory: the arena against the table, and the index against the arena.
#include "twin.h"

static inline bool segment_row_fits(row r, size_t words, uint32_t next)
{
    uint64_t end = (uint64_t)r.address + r.words;
    return ticket_fits(r, next) & (r.words != 0) & (r.address != 0) & (end <= words);
}

static inline bool held_word_fits(const int32_t *v, row r)
{
    return v[r.address - 1] == -(int32_t)(r.words + 1);
}

static bool inner_words_fit(const uint32_t *index, size_t s)
{
    uint32_t wrong = index[0];
    for (size_t i = 1; i < s; i++)
        wrong |= index[i] ^ larger(index[2 * i], index[2 * i + 1]);
    return wrong == 0;
}

#if TWIN_TILES

// A bit for each word at which a record's block begins.
typedef struct {
    size_t live;
    uint64_t first[MOST_WORDS / 64];
} start_map;

static inline bool starts_here(const start_map *m, size_t at)
{
    return (m->first[at / 64] >> (at % 64) & 1) != 0;
}

static bool map_starts(start_map *m, const int32_t *v, size_t words, const uint32_t *table, size_t slots,
                       uint32_t next)
{
    ticket_set tickets;
    no_tickets(&tickets, slots);
    m->live = 0;
    memset(m->first, 0, (words + 63) / 64 * sizeof m->first[0]);
    for (size_t i = 0; i < slots; i++) {
        row r = read_row(table, i);
        if (is_empty(r))
            continue;
        if (!segment_row_fits(r, words, next) || !held_word_fits(v, r) || starts_here(m, r.address - 1) ||
            !is_new_ticket(&tickets, r.ticket))
            return false;
        m->first[(r.address - 1) / 64] |= (uint64_t)1 << ((r.address - 1) % 64);
        m->live++;
    }
    return true;
}

// The size of the block at a word, 0 where none of a sound pool begins. Held ones are records' blocks, each counted;
// free ones read zero and do not follow a free one.
static inline size_t block_size(start_map *m, const int32_t *v, size_t words, size_t at, bool after_free)
{
    if (v[at] < 0) {
        m->live--;
        return starts_here(m, at) ? size_of(v[at]) : 0;
    }
    size_t n = (size_t)v[at];
    if (n == 0 || after_free || n > words - at || !zero_words((const uint32_t *)v + at + 1, n - 1))
        return 0;
    return n;
}

// Block after block, with the leaf and the first block of each segment on the way. Blocks that lie side by side do
// not overlap, and none of the table's is left over: so the records don't overlap either.
static bool blocks_fit(start_map *m, const int32_t *v, const uint32_t *index, shape h)
{
    size_t at = 0;
    bool after_free = false;
    for (size_t k = 0; k < h.s; k++) {
        size_t hi = segment_end(h, k);
        uint32_t most = 0, first = (uint32_t)(at < hi ? at : h.words);
        while (at < hi) {
            size_t n = block_size(m, v, h.words, at, after_free);
            if (n == 0)
                return false;
            most = larger(most, weight_of(v[at]));
            after_free = v[at] > 0;
            at += n;
        }
        if (index[h.s + k] != most || index[2 * h.s + k] != first)
            return false;
    }
    return m->live == 0;
}

static bool segment_stored(const int32_t *v, const uint32_t *table, size_t slots, uint32_t next,
                           const uint32_t *index, shape h)
{
    start_map map;
    return map_starts(&map, v, h.words, table, slots, next) && blocks_fit(&map, v, index, h) &&
           inner_words_fit(index, h.s);
}

#else

// A byte for each unit, 0 where it is free, filled from the records with their control words.
static bool map_units(uint8_t *held, const int32_t *v, size_t words, const uint32_t *table, size_t slots,
                      uint32_t next)
{
    memset(held, 0, words);
    for (size_t i = 0; i < slots; i++) {
        row r = read_row(table, i);
        if (is_empty(r))
            continue;
        if (!segment_row_fits(r, words, next) || !held_word_fits(v, r))
            return false;
        if (!zero_bytes(held + r.address - 1, r.words + 1))
            return false;
        memset(held + r.address - 1, 1, r.words + 1);
    }
    return tickets_differ(table, slots);
}

// Every free run, from held block to held block. A held block's control word, right by now, says where it ends.
static bool runs_fit(const uint8_t *held, const int32_t *v, size_t words)
{
    size_t at = 0;
    while (at < words) {
        if (held[at] != 0) {
            at += size_of(v[at]);
            continue;
        }
        size_t n = (size_t)v[at];
        if (v[at] <= 0 || n > words - at || !zero_bytes(held + at, n) ||
            !zero_words((const uint32_t *)v + at + 1, n - 1))
            return false;
        at += n;
        if (at < words && held[at] == 0)
            return false;
    }
    return true;
}

static bool leaves_fit(const int32_t *v, const uint32_t *index, shape h)
{
    size_t at = 0;
    bool ok = true;
    for (size_t k = 0; k < h.s; k++) {
        size_t hi = segment_end(h, k);
        uint32_t most = 0, first = (uint32_t)(at < hi ? at : h.words);
        for (; at < hi; at += size_of(v[at]))
            most = larger(most, weight_of(v[at]));
        ok &= (index[h.s + k] == most) & (index[2 * h.s + k] == first);
    }
    return ok;
}

static bool segment_stored(const int32_t *v, const uint32_t *table, size_t slots, uint32_t next,
                           const uint32_t *index, shape h)
{
    uint8_t held[MOST_WORDS];
    return map_units(held, v, h.words, table, slots, next) && runs_fit(held, v, h.words) && leaves_fit(v, index, h) &&
           inner_words_fit(index, h.s);
}

#endif

static bool segment_lengths_suit(size_t arena_len, size_t table_len, uint32_t s, size_t index_len)
{
    return arena_len >= 2 && arena_len <= MOST_WORDS && table_suits(table_len) && s >= 1 && s <= MOST_SEGMENTS &&
           (s & (s - 1)) == 0 && index_len == 3 * (size_t)s;
}

// The number of the tests before every call: 8, 1, 12, or 0 for a sound pool.
static uint32_t segment_gate(uint32_t next, const int32_t *arena, size_t arena_len, const uint32_t *table,
                             size_t table_len, uint32_t s, const uint32_t *index, size_t index_len, uint32_t party)
{
    if (!segment_lengths_suit(arena_len, table_len, s, index_len))
        return BAD_LENGTHS;
    shape h = shape_of(arena_len, s);
    if (!segment_stored(arena, table, table_len / RECORD_WORDS, next, index, h))
        return UNSOUND;
    return is_party(party) ? DONE : BAD_PARTY;
}
