// The calls of the segment pool.
#include "twin.h"

// What a call on a sound pool works on.
typedef struct {
    int32_t *v;
    uint32_t *table;
    size_t slots;
    uint32_t *index;
    shape h;
} segment_pool;

// The lowest free block that is large enough, and the places looked at to find it.
typedef struct {
    size_t at;
    uint32_t places;
} fit;

static inline lf_segment_outcome segment_refused(uint32_t next, uint32_t number)
{
    return (lf_segment_outcome){next, refused(number)};
}

static inline lf_segment_allocation not_granted(uint32_t next, uint32_t number)
{
    return (lf_segment_allocation){next, refused(number), number == NO_ROOM};
}

// The control words at a, b and, where a free block lay there, e have changed; `end` is the first block past them. Each
// segment that holds one is scanned once.
static ALWAYS_INLINE void reindex(const segment_pool *p, size_t a, size_t b, size_t e, size_t end, bool free_at_e)
{
    size_t ka = segment_of(p->h, a), kb = segment_of(p->h, b), ke = segment_of(p->h, e);
    refresh(p->v, p->index, p->h, ka, p->index[2 * p->h.s + ka]);
    if (kb != ka)
        refresh(p->v, p->index, p->h, kb, end);
    if (free_at_e && ke != ka && ke != kb)
        refresh(p->v, p->index, p->h, ke, end);
}

// The same after a grant, which changes only those at `at` and, where a rest lies there, at `end`.
static ALWAYS_INLINE void reindex_grant(const segment_pool *p, size_t at, size_t end, bool rest)
{
    size_t k = segment_of(p->h, at), ke = segment_of(p->h, end);
    refresh(p->v, p->index, p->h, k, p->index[2 * p->h.s + k]);
    if (rest && ke != k)
        refresh(p->v, p->index, p->h, ke, end);
}

// The lowest free block of n words or more, where the root of the index says that there is one.
static ALWAYS_INLINE fit first_fit(const segment_pool *p, uint32_t n)
{
    size_t k = descend(p->index, p->h.s, n) - p->h.s;
    fit f = {p->index[2 * p->h.s + k], 2 + (uint32_t)__builtin_ctzl(p->h.s)};
    while (weight_of(p->v[f.at]) < n) {
        f.at += size_of(p->v[f.at]);
        f.places++;
    }
    return f;
}

static ALWAYS_INLINE void take_words(const segment_pool *p, size_t at, size_t n)
{
    size_t rest = (size_t)p->v[at] - n;
    if (rest != 0)
        p->v[at + n] = (int32_t)rest;
    p->v[at] = -(int32_t)n;
    reindex_grant(p, at, at + n, rest != 0);
}

// The free words right below the block at a word: the blocks of its segment, or of the last before it in which one
// begins, lead there.
static ALWAYS_INLINE size_t free_below(const segment_pool *p, size_t at)
{
    if (at == 0)
        return 0;
    size_t k = segment_of(p->h, at);
    size_t from = p->index[2 * p->h.s + k];
    if (from >= at)
        from = p->index[p->h.s + last_before(p->index, p->h.s, p->h.s + k)];
    size_t next = from + size_of(p->v[from]);
    while (next < at) {
        from = next;
        next += size_of(p->v[next]);
    }
    return p->v[from] > 0 ? (size_t)p->v[from] : 0;
}

static ALWAYS_INLINE void give_words(const segment_pool *p, size_t at, size_t n)
{
    size_t x = free_below(p, at), e = at + n;
    size_t y = e < p->h.words && p->v[e] > 0 ? (size_t)p->v[e] : 0;
    memset(p->v + at, 0, (n + (y != 0)) * sizeof p->v[0]);
    p->v[at - x] = (int32_t)(x + n + y);
    reindex(p, at - x, at, e, e + y, y != 0);
}

// Of the block of n words at a word, the first `kept` stay held. What is left begins where no block began, so it may be
// the first of its segment; what lies below it is held.
static ALWAYS_INLINE void cut_words(const segment_pool *p, size_t at, size_t kept, size_t n)
{
    size_t tail = at + kept, e = at + n;
    size_t y = e < p->h.words && p->v[e] > 0 ? (size_t)p->v[e] : 0;
    memset(p->v + tail, 0, (n - kept + (y != 0)) * sizeof p->v[0]);
    p->v[at] = -(int32_t)kept;
    p->v[tail] = (int32_t)(n - kept + y);
    size_t k = segment_of(p->h, tail), ke = segment_of(p->h, e);
    refresh(p->v, p->index, p->h, k, lesser(p->index[2 * p->h.s + k], tail));
    if (y != 0 && ke != k)
        refresh(p->v, p->index, p->h, ke, e + y);
}

// An allocation on a sound pool.
static ALWAYS_INLINE lf_segment_allocation segment_grant(uint32_t next, const segment_pool *p, uint32_t party,
                                                         uint32_t words)
{
    if (words == 0 || words > MOST_WORDS)
        return not_granted(next, BAD_WORDS);
    size_t slot = empty_slot(p->table, p->slots);
    if (slot == p->slots)
        return not_granted(next, NO_RECORD);
    if (next == 0)
        return not_granted(next, NO_TICKET);
    if (p->index[1] < words + 1)
        return not_granted(next, NO_ROOM);
    fit f = first_fit(p, words + 1);
    take_words(p, f.at, words + 1);
    row new = {next, (uint32_t)(f.at + 1), words, party};
    write_row(p->table, slot, new);
    return (lf_segment_allocation){next_after(next), succeeded(new), f.places};
}

// A release on a sound pool.
static ALWAYS_INLINE lf_segment_outcome segment_vacate(uint32_t next, const segment_pool *p, row r)
{
    named at = named_slot(p->table, p->slots, r);
    if (at.number != DONE)
        return segment_refused(next, at.number);
    give_words(p, r.address - 1, r.words + 1);
    write_row(p->table, at.slot, (row){0, 0, 0, 0});
    return (lf_segment_outcome){next, succeeded(r)};
}

// A trim on a sound pool.
static ALWAYS_INLINE lf_segment_outcome segment_cut(uint32_t next, const segment_pool *p, row r, uint32_t keep)
{
    named at = named_slot(p->table, p->slots, r);
    if (at.number != DONE)
        return segment_refused(next, at.number);
    if (keep == 0 || keep > r.words)
        return segment_refused(next, BAD_WORDS);
    if (keep < r.words)
        cut_words(p, r.address - 1, keep + 1, r.words + 1);
    r.words = keep;
    write_row(p->table, at.slot, r);
    return (lf_segment_outcome){next, succeeded(r)};
}

static ALWAYS_INLINE lf_segment_outcome segment_serve(uint32_t next, const segment_pool *p, uint32_t party,
                                                      const uint32_t *q)
{
    if (q[0] == 1 && (q[2] | q[3]) == 0) {
        lf_segment_allocation one = segment_grant(next, p, party, q[1]);
        return (lf_segment_outcome){one.next, one.answer};
    }
    if (q[0] == 2)
        return segment_vacate(next, p, (row){q[1], q[2], q[3], party});
    return segment_refused(next, BAD_REQUEST);
}

lf_segment_outcome TWIN(segment_format)(int32_t *restrict arena, size_t arena_len, uint32_t *restrict table,
                                        size_t table_len, uint32_t segments, uint32_t *restrict index,
                                        size_t index_len, uint32_t first)
{
    if (!segment_lengths_suit(arena_len, table_len, segments, index_len))
        return segment_refused(0, BAD_LENGTHS);
    if (first == 0)
        return segment_refused(0, UNKNOWN_TICKET);
    memset(arena, 0, arena_len * sizeof arena[0]);
    memset(table, 0, table_len * sizeof table[0]);
    memset(index, 0, 2 * segments * sizeof index[0]);
    arena[0] = (int32_t)arena_len;
    for (size_t i = segments; i > 0; i /= 2)
        index[i] = (uint32_t)arena_len;
    for (size_t k = 1; k < segments; k++)
        index[2 * segments + k] = (uint32_t)arena_len;
    index[2 * segments] = 0;
    return (lf_segment_outcome){first, {DONE, 0, 0, 0}};
}

lf_segment_allocation TWIN(segment_allocate)(uint32_t next, int32_t *restrict arena, size_t arena_len,
                                             uint32_t *restrict table, size_t table_len, uint32_t segments,
                                             uint32_t *restrict index, size_t index_len, uint32_t party,
                                             uint32_t words)
{
    uint32_t number = segment_gate(next, arena, arena_len, table, table_len, segments, index, index_len, party);
    if (number != DONE)
        return not_granted(next, number);
    segment_pool p = {arena, table, table_len / RECORD_WORDS, index, shape_of(arena_len, segments)};
    return segment_grant(next, &p, party, words);
}

lf_segment_outcome TWIN(segment_release)(uint32_t next, int32_t *restrict arena, size_t arena_len,
                                         uint32_t *restrict table, size_t table_len, uint32_t segments,
                                         uint32_t *restrict index, size_t index_len, uint32_t party, uint32_t ticket,
                                         uint32_t address, uint32_t words)
{
    uint32_t number = segment_gate(next, arena, arena_len, table, table_len, segments, index, index_len, party);
    if (number != DONE)
        return segment_refused(next, number);
    segment_pool p = {arena, table, table_len / RECORD_WORDS, index, shape_of(arena_len, segments)};
    return segment_vacate(next, &p, (row){ticket, address, words, party});
}

lf_segment_outcome TWIN(segment_trim)(uint32_t next, int32_t *restrict arena, size_t arena_len,
                                      uint32_t *restrict table, size_t table_len, uint32_t segments,
                                      uint32_t *restrict index, size_t index_len, uint32_t party, uint32_t ticket,
                                      uint32_t address, uint32_t words, uint32_t keep)
{
    uint32_t number = segment_gate(next, arena, arena_len, table, table_len, segments, index, index_len, party);
    if (number != DONE)
        return segment_refused(next, number);
    segment_pool p = {arena, table, table_len / RECORD_WORDS, index, shape_of(arena_len, segments)};
    return segment_cut(next, &p, (row){ticket, address, words, party}, keep);
}

lf_answer TWIN(segment_find)(uint32_t next, const int32_t *restrict arena, size_t arena_len,
                             const uint32_t *restrict table, size_t table_len, uint32_t segments,
                             const uint32_t *restrict index, size_t index_len, uint32_t party, uint32_t ticket,
                             uint32_t address, uint32_t words)
{
    uint32_t number = segment_gate(next, arena, arena_len, table, table_len, segments, index, index_len, party);
    row r = {ticket, address, words, party};
    if (number == DONE)
        number = named_slot(table, table_len / RECORD_WORDS, r).number;
    return number == DONE ? succeeded(r) : refused(number);
}

lf_segment_outcome TWIN(segment_list)(uint32_t next, int32_t *restrict arena, size_t arena_len,
                                      uint32_t *restrict table, size_t table_len, uint32_t segments,
                                      uint32_t *restrict index, size_t index_len, uint32_t party,
                                      const uint32_t *restrict requests, size_t requests_len,
                                      uint32_t *restrict answers, size_t answers_len)
{
    if (!list_suits(requests_len, answers_len))
        return segment_refused(next, BAD_LENGTHS);
    uint32_t number = segment_gate(next, arena, arena_len, table, table_len, segments, index, index_len, party);
    if (number != DONE)
        return segment_refused(next, number);
    segment_pool p = {arena, table, table_len / RECORD_WORDS, index, shape_of(arena_len, segments)};
    for (size_t i = 0; i < requests_len; i += REQUEST_WORDS) {
        lf_segment_outcome one = segment_serve(next, &p, party, requests + i);
        next = one.next;
        put_answer(answers + i, one.answer);
    }
    return (lf_segment_outcome){next, {DONE, 0, 0, 0}};
}
