#include "shapes.h"

#include <string.h>

// ---- runs and strips

size_t free_runs(const pool *p, run runs[POOL_RECORDS + 1])
{
    static uint8_t held[LARGE_UNITS];
    size_t units = units_of(p), count = 0;
    memset(held, 0, units);
    for (const uint32_t *r = p->table; r < p->table + RECORD_WORDS * p->records; r += RECORD_WORDS)
        if (r[0] != 0)
            memset(held + (is_tree(p) ? r[1] / unit_words(p) : r[1] - 1), 1, units_for(p, r[2]));
    for (size_t k = 0; k < units; k++) {
        if (held[k] != 0)
            continue;
        if (k == 0 || held[k - 1] != 0)
            runs[count++] = (run){k, 0};
        runs[count - 1].units++;
    }
    return count;
}

uint32_t least_held(const pool *p)
{
    return is_tree(p) ? 1 : 2;
}

strip equal_gaps(const pool *p)
{
    strip s = {.held_count = p->records};
    uint32_t units = (uint32_t)units_of(p), records = (uint32_t)p->records;
    uint32_t gap = units / (2 * (records + 1));
    uint32_t rest = units - (records + 1) * gap;
    for (size_t i = 0; i < records; i++) {
        s.free[i] = gap;
        s.held[i] = rest / records;
    }
    s.free[records] = gap;
    s.held[records - 1] += rest % records;
    return s;
}

strip rising_gaps(const pool *p)
{
    strip s = {.held_count = 0, .free = {1}};
    uint32_t units = (uint32_t)units_of(p), between = least_held(p), used = 1;
    for (uint32_t gap = 2; gap <= p->records + 1 && used + between + gap <= units; gap++) {
        s.held[s.held_count++] = between;
        s.free[s.held_count] = gap;
        used += between + gap;
    }
    s.free[s.held_count] += units - used; // what is left over makes the last one longer still
    return s;
}

// ---- the tree pool's nodes

uint32_t *node_at(pool *p, size_t link)
{
    return p->arena + cell_words(p) * (link - 1);
}

size_t left_of(const pool *p, size_t link)
{
    uint32_t word = p->arena[cell_words(p) * (link - 1) + 1];
    return cell_words(p) == 4 ? word : word & 0xffff;
}

size_t right_of(const pool *p, size_t link)
{
    const uint32_t *node = p->arena + cell_words(p) * (link - 1);
    return cell_words(p) == 4 ? node[2] : node[1] >> 16;
}

void set_links(pool *p, size_t link, size_t left, size_t right)
{
    uint32_t *node = node_at(p, link);
    node[1] = (uint32_t)(cell_words(p) == 4 ? left : left | right << 16);
    if (cell_words(p) == 4)
        node[2] = (uint32_t)right;
}

// The link to the tree of the free blocks from number i up to n, the longest on top, of equal ones the lowest. They
// begin at the units `at`.
static uint32_t tree_of(pool *p, const strip *s, const uint32_t *at, size_t i, size_t n)
{
    size_t top = i;
    for (size_t k = i; k < n; k++)
        if (s->free[k] > s->free[top])
            top = k;
    if (i == n || s->free[top] == 0)
        return 0;
    uint32_t link = unit_cells(p) * at[top] + 1;
    node_at(p, link)[0] = unit_cells(p) * s->free[top];
    set_links(p, link, tree_of(p, s, at, i, top), tree_of(p, s, at, top + 1, n));
    return link;
}

// ---- the segment pool's index

static void clear_index(pool *p)
{
    memset(p->index, 0, 2 * p->segments * sizeof p->index[0]);
    for (size_t k = 0; k < p->segments; k++)
        p->index[2 * p->segments + k] = (uint32_t)p->words;
}

// The next block, at a word, goes into its segment's leaf and first block.
static void index_block(pool *p, size_t at, uint32_t weight)
{
    size_t k = at / ((p->words + p->segments - 1) / p->segments);
    uint32_t *leaf = p->index + p->segments + k, *first = p->index + 2 * p->segments + k;
    if (*leaf == 0)
        *first = (uint32_t)at;
    if (*leaf < weight)
        *leaf = weight;
}

static void index_above(pool *p)
{
    for (size_t i = p->segments - 1; i > 0; i--) {
        uint32_t low = p->index[2 * i], high = p->index[2 * i + 1];
        p->index[i] = low < high ? high : low;
    }
}

// ---- blocks

// The tree pool's nodes are written when all places are known.
static void lay_free(pool *p, size_t at, uint32_t units)
{
    memset(p->arena + unit_words(p) * at, 0, unit_words(p) * units * sizeof p->arena[0]);
    if (p->engine == SEGMENT && units > 0) {
        p->arena[at] = units;
        index_block(p, at, units);
    }
}

static void lay_held(pool *p, size_t slot, size_t at, uint32_t units)
{
    uint32_t address = (uint32_t)(is_tree(p) ? unit_words(p) * at : at + 1);
    uint32_t ticket = p->head.next + random_below(1000), words = words_for(p, units);
    if (p->engine == SEGMENT) {
        p->arena[at] = -units;
        index_block(p, at, 1);
    }
    for (uint32_t i = 0; i < words; i++)
        p->arena[address + i] = random_below(0xffffffff) | 1;
    memcpy(p->table + RECORD_WORDS * slot, (const uint32_t[RECORD_WORDS]){ticket, address, words, PARTY},
           RECORD_WORDS * sizeof ticket);
    p->head.next = ticket + 1;
}

void lay(pool *p, const strip *s)
{
    uint32_t at[POOL_RECORDS + 1], unit = 0;
    memset(p->table, 0, sizeof p->table);
    p->head = (lf_tree_head){0, 1, form_of(p->engine)};
    if (p->engine == SEGMENT)
        clear_index(p);
    for (size_t i = 0; i <= s->held_count; i++) {
        at[i] = unit;
        lay_free(p, unit, s->free[i]);
        unit += s->free[i];
        if (i < s->held_count) {
            lay_held(p, i, unit, s->held[i]);
            unit += s->held[i];
        }
    }
    if (unit != units_of(p))
        fail(p, "blocks were laid past the last unit, or not so far");
    if (is_tree(p))
        p->head.root = tree_of(p, s, at, 0, s->held_count + 1);
    else
        index_above(p);
    const uint32_t *middle = p->table + RECORD_WORDS * (s->held_count / 2);
    p->named = (lf_answer){0, middle[0], middle[1], middle[2]};
}
