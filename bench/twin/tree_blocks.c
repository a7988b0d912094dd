// The tree of free blocks of a sound pool: a block inserted, deleted, shortened; cells given back.
#include "twin.h"

// Whether the block of n cells at cell x stands above the one at the link.
static inline bool stands_above(tree t, size_t x, uint32_t n, size_t at)
{
    uint32_t k = length_of(t, at - 1);
    return k < n || (k == n && x < at - 1);
}

static inline void *toward(tree t, size_t c, size_t x)
{
    return x < c ? left_place(t, c) : right_place(t, c);
}

// The tree `from`, none of whose blocks is at cell x, split by address into the places of x's two sons, which are 0. A
// link is stored only where it differs: on one side of x the path keeps its links, at each turn one changes.
static void split(tree t, size_t from, size_t x)
{
    void *lo = left_place(t, x), *hi = right_place(t, x);
    while (from != 0) {
        if (from - 1 < x) {
            set_link(t, lo, from);
            do {
                lo = right_place(t, from - 1);
                from = link_at(t, lo);
            } while (from != 0 && from - 1 < x);
        } else {
            set_link(t, hi, from);
            do {
                hi = left_place(t, from - 1);
                from = link_at(t, hi);
            } while (from != 0 && from - 1 >= x);
        }
    }
    if (link_at(t, lo) != 0)
        set_link(t, lo, 0);
    if (link_at(t, hi) != 0)
        set_link(t, hi, 0);
}

static void insert(tree t, void *place, size_t x, uint32_t n)
{
    size_t below = link_at(t, place);
    while (below != 0 && !stands_above(t, x, n, below)) {
        place = toward(t, below - 1, x);
        below = link_at(t, place);
    }
    set_link(t, place, x + 1);
    node_of(t, x)[0] = n;
    split(t, below, x);
}

// The block of n cells at cell x takes the place; `a` and `b` are the trees beside it. Where one of them is heavier,
// its root goes up and its inner side goes on. n = 0: nothing takes the place, and the two trees are joined.
static void sink(tree t, void *place, size_t a, size_t b, size_t x, uint32_t n)
{
    for (;;) {
        bool low = a != 0 && (b == 0 || length_of(t, b - 1) <= length_of(t, a - 1));
        size_t top = low ? a : b;
        if (top == 0 || stands_above(t, x, n, top))
            break;
        set_link(t, place, top);
        place = low ? right_place(t, top - 1) : left_place(t, top - 1);
        if (low)
            a = link_at(t, place);
        else
            b = link_at(t, place);
    }
    set_link(t, place, n == 0 ? 0 : x + 1);
    if (n != 0)
        put_node(t, x, n, a, b);
}

// The block at cell x is taken out of the tree; its node reads zero.
static void take_out(tree t, void *root, size_t x)
{
    void *place = root;
    for (size_t at = link_at(t, place); at - 1 != x; at = link_at(t, place))
        place = toward(t, at - 1, x);
    size_t a = left_of(t, x), b = right_of(t, x);
    clear_node(t, x);
    sink(t, place, a, b, 0, 0);
}

// The place of the leftmost block of at least k cells, or NULL.
static void *leftmost_fit(tree t, void *root, uint32_t k)
{
    void *fits = NULL, *place = root;
    for (size_t at = link_at(t, place); at != 0 && length_of(t, at - 1) >= k; at = link_at(t, place)) {
        fits = place;
        place = left_place(t, at - 1);
    }
    return fits;
}

// The first k cells of the block at the place are taken, and read zero. What is left of it stays between the same
// neighbours, so it only sinks.
static void take_cells(tree t, void *place, uint32_t k)
{
    size_t c = link_at(t, place) - 1;
    uint32_t n = length_of(t, c);
    size_t a = left_of(t, c), b = right_of(t, c);
    clear_node(t, c);
    sink(t, place, a, b, c + k, n - k);
}

// The cells from lo up to hi are wiped and given back, as one block with those that they touch. One search finds the
// free blocks on both sides.
static void give_cells(tree t, void *root, size_t lo, size_t hi)
{
    memset(node_of(t, lo), 0, (size_t)(node_of(t, hi) - node_of(t, lo)) * sizeof t.arena[0]);
    size_t below = 0, above = 0;
    for (size_t at = link_at(t, root); at != 0;) {
        size_t c = at - 1;
        if (lo < c) {
            above = at;
            at = left_of(t, c);
        } else {
            below = at;
            at = right_of(t, c);
        }
    }
    size_t first = lo, end = hi;
    if (below != 0 && below - 1 + length_of(t, below - 1) == lo) {
        first = below - 1;
        take_out(t, root, first);
    }
    if (above != 0 && above - 1 == hi) {
        end = hi + length_of(t, hi);
        take_out(t, root, hi);
    }
    insert(t, root, first, (uint32_t)(end - first));
}
