// The tree pool's soundness check: left part, node, right part, over any memory.
#include "twin.h"

// Whether the node of z cells at cell c is the first free run from cell k on, with zeros behind length and links.
static inline bool node_fits(tree t, tree_map *m, size_t k, size_t c, size_t z)
{
    if (c < k || z == 0 || z > m->cells - c)
        return false;
    size_t words = is_wide(t) ? 4 * z : 2 * z, used = is_wide(t) ? 3 : 2;
    return run_is_next(m, k, c, z) && zero_words(node_of(t, c) + used, words - used);
}

// Left part, node, right part. Nodes to the left are shorter than their father, those to the right no longer. A pool of
// n live records has at most n + 1 free runs, so the walk goes no deeper, on any memory; and each node that fits lies
// further on. Only a node with a left part is kept for later.
static bool walk(tree t, tree_map *m, size_t root)
{
    uint32_t above[MOST_RECORDS + 1];
    size_t depth = 0, k = 0, at = root, limit = m->cells + 1, deepest = m->live + 1;
    for (;;) {
        if (at == 0)
            return runs_end(m, k);
        if (at > m->cells || length_of(t, at - 1) >= limit)
            return false;
        size_t c = at - 1, z = length_of(t, c);
        at = left_of(t, c);
        if (at != 0) {
            if (depth == deepest)
                return false;
            above[depth++] = (uint32_t)c;
            limit = z;
            continue;
        }
        for (;;) {
            if (!node_fits(t, m, k, c, z))
                return false;
            k = c + z;
            limit = z + 1;
            at = right_of(t, c);
            if (at != 0 || depth == 0)
                break;
            c = above[--depth];
            z = length_of(t, c);
        }
    }
}

static bool tree_lengths_suit(uint32_t form, size_t arena_len, size_t table_len)
{
    uint32_t unit = unit_words(form);
    return arena_len >= unit && arena_len <= most_words(form) && arena_len % unit == 0 && table_suits(table_len);
}

// The number of the tests before every call, once its form is known: 8, 1, 12, or 0 for a sound pool.
static uint32_t tree_gate(lf_tree_head head, const uint32_t *arena, size_t arena_len, const uint32_t *table,
                          size_t table_len, uint32_t party)
{
    tree_map map;
    uint32_t form = FORM_OF(head.form);
    if (!tree_lengths_suit(form, arena_len, table_len))
        return BAD_LENGTHS;
    if (!map_table(&map, form, arena_len, table, table_len / RECORD_WORDS, head.next))
        return UNSOUND;
    if (!walk(tree_in(form, arena), &map, head.root))
        return UNSOUND;
    return is_party(party) ? DONE : BAD_PARTY;
}
