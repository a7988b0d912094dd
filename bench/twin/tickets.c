// Whether no ticket stands in two slots.
#include "twin.h"

#if TWIN_TILES

// Residues of the tickets seen, a bit for each. Only tickets that share one with an earlier ticket are compared.
typedef struct {
    uint32_t residues;
    size_t count;
    uint64_t seen[MOST_RECORDS * 16 / 64];
    uint32_t ids[MOST_RECORDS];
} ticket_set;

static inline void no_tickets(ticket_set *s, size_t slots)
{
    s->count = 0;
    s->residues = slots <= 16 ? 16 * 16 : MOST_RECORDS * 16;
    memset(s->seen, 0, s->residues / 8);
}

static inline bool is_new_ticket(ticket_set *s, uint32_t t)
{
    uint32_t residue = t & (s->residues - 1);
    uint64_t bit = (uint64_t)1 << (residue % 64);
    if ((s->seen[residue / 64] & bit) != 0 && !none_is(s->ids, s->count, t))
        return false;
    s->seen[residue / 64] |= bit;
    s->ids[s->count++] = t;
    return true;
}

#else

// All pairs. The tickets stand side by side, so that several are compared at a time.
static bool tickets_differ(const uint32_t *table, size_t slots)
{
    uint32_t ids[MOST_RECORDS];
    size_t n = 0;
    for (size_t i = 0; i < slots; i++) {
        uint32_t t = table[RECORD_WORDS * i];
        if (t != 0)
            ids[n++] = t;
    }
    for (size_t i = 0; i + 1 < n; i++)
        if (!none_is(ids + i + 1, n - i - 1, ids[i]))
            return false;
    return true;
}

#endif
