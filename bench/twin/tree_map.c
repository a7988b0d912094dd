// What the tree walk asks of the table: where the free runs lie. A map, filled from records that fit by themselves.
#include "twin.h"

static inline bool tree_row_fits(uint32_t form, row r, size_t words, uint32_t next)
{
    uint32_t spare = unit_words(form) - 1;
    uint64_t end = ((uint64_t)r.address + r.words + spare) & ~(uint64_t)spare;
    return ticket_fits(r, next) & (r.words != 0) & ((r.address & spare) == 0) & (end <= words);
}

#if TWIN_TILES

// The first cell of each record is marked and its length stands beside it. Marks are all that has to be wiped, and
// held blocks cost the same whatever their length. In many cells records have entries instead, from a place on that the
// cell's number gives; the last of them can lie behind the places by one less than there are records.
typedef struct {
    size_t cells, live;
#if !TWIN_TEMPLATE
    uint32_t form;
#endif
    int shift;
    uint64_t first[MARKED_CELLS / 64];
    uint16_t length[MARKED_CELLS];
    tile tiles[TILE_PLACES + MOST_RECORDS];
} tree_map;

static inline bool is_hashed(const tree_map *m)
{
    return FORM_OF(m->form) == 2 && m->cells > MARKED_CELLS;
}

// The record's entry that begins with this cell, or the empty one where it would stand.
static inline tile *entry_of(tree_map *m, size_t c)
{
    tile *e = m->tiles + ((uint32_t)c * 2654435761u >> m->shift);
    while (e->length != 0 && e->first != c)
        e++;
    return e;
}

static inline void no_blocks(tree_map *m, size_t slots)
{
    int bits = slots <= FEW_RECORDS ? FEW_TILE_BITS : TILE_BITS;
    m->live = 0;
    m->shift = 32 - bits;
    if (is_hashed(m))
        memset(m->tiles, 0, (((size_t)1 << bits) + slots) * sizeof m->tiles[0]);
    else
        memset(m->first, 0, (m->cells + 63) / 64 * sizeof m->first[0]);
}

static inline bool map_row(tree_map *m, uint32_t form, row r)
{
    size_t c = r.address / cell_words(form);
    uint32_t n = cells_for(form, r.words);
    m->live++;
    if (is_hashed(m)) {
        tile *e = entry_of(m, c);
        bool is_new = e->length == 0;
        *e = (tile){(uint32_t)c, n};
        return is_new;
    }
    uint64_t bit = (uint64_t)1 << (c % 64);
    if ((m->first[c / 64] & bit) != 0)
        return false;
    m->first[c / 64] |= bit;
    m->length[c] = (uint16_t)n;
    return true;
}

static bool map_table(tree_map *m, uint32_t form, size_t words, const uint32_t *table, size_t slots, uint32_t next)
{
    ticket_set tickets;
    no_tickets(&tickets, slots);
#if !TWIN_TEMPLATE
    m->form = form;
#endif
    m->cells = words / cell_words(form);
    no_blocks(m, slots);
    size_t i = 0;
#if !TWIN_EXIT
    // Up to the first live slot nothing is to be noted. That helps empty and large pools; small ones in use are quicker
    // without, so the other twins have it not.
    if (is_empty(read_row(table, 0)))
        do
            i++;
        while (i < slots && is_empty(read_row(table, i)));
#endif
    for (; i < slots; i++) {
        row r = read_row(table, i);
        if (is_empty(r))
            continue;
        if (!tree_row_fits(form, r, words, next) || !map_row(m, form, r) || !is_new_ticket(&tickets, r.ticket))
            return false;
    }
    return true;
}

// The cells of the record that begins with this one; 0 where none does.
static inline size_t length_at(tree_map *m, size_t c)
{
    if (is_hashed(m))
        return entry_of(m, c)->length;
    return (m->first[c / 64] >> (c % 64) & 1) == 0 ? 0 : m->length[c];
}

// Whether records lie side by side from cell k up to cell e. Each is counted, so that none is left over.
static inline bool held_to(tree_map *m, size_t k, size_t e)
{
    while (k < e) {
        size_t n = length_at(m, k);
        if (n == 0)
            return false;
        k += n;
        m->live--;
    }
    return k == e;
}

// Whether z cells from c on are the first free run from cell k on, and do not touch the one that ended at k. What
// follows them is asked for by the next call.
static inline bool run_is_next(tree_map *m, size_t k, size_t c, size_t z)
{
    (void)z;
    return (k < c || k == 0) && held_to(m, k, c);
}

static inline bool runs_end(tree_map *m, size_t k)
{
    return held_to(m, k, m->cells) && m->live == 0;
}

#else

// A byte for each cell, 0 where it is free.
typedef struct {
    size_t cells, live;
    uint8_t held[MOST_CELLS];
} tree_map;

static bool map_row(tree_map *m, uint32_t form, row r)
{
    size_t c = r.address / cell_words(form), n = cells_for(form, r.words);
    if (!zero_bytes(m->held + c, n))
        return false;
    memset(m->held + c, 1, n);
    return true;
}

static bool map_table(tree_map *m, uint32_t form, size_t words, const uint32_t *table, size_t slots, uint32_t next)
{
    m->cells = words / cell_words(form);
    m->live = 0;
    memset(m->held, 0, m->cells);
    for (size_t i = 0; i < slots; i++) {
        row r = read_row(table, i);
        if (is_empty(r))
            continue;
        if (!tree_row_fits(form, r, words, next) || !map_row(m, form, r))
            return false;
        m->live++;
    }
    return tickets_differ(table, slots);
}

static inline bool run_is_next(tree_map *m, size_t k, size_t c, size_t z)
{
    size_t e = c + z;
    return no_zero_bytes(m->held + k, c - k) && zero_bytes(m->held + c, z) && (e == m->cells || m->held[e] != 0);
}

static inline bool runs_end(tree_map *m, size_t k)
{
    return no_zero_bytes(m->held + k, m->cells - k);
}

#endif
