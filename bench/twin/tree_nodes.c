// What a form is, and a free block's node, in its first cell: length and links. The links stand side by side in one
// word; in form 2 each has a word of its own, and the cell's fourth word is 0.
#include "twin.h"

#if !defined(__BYTE_ORDER__) || __BYTE_ORDER__ != __ORDER_LITTLE_ENDIAN__
#error "a link is read as half a word, and the left one has to be the lower half"
#endif

#if TWIN_TEMPLATE
#define FORM_OF(given) FORM
#else
#define FORM_OF(given) (given)
#endif

// ---- the form

static inline uint32_t cell_words(uint32_t form)
{
    (void)form;
    return FORM_OF(form) == 2 ? 4 : 2;
}

// Of the ledger: blocks begin on a unit and take whole ones. Form 3 has the cells of form 1.
static inline uint32_t unit_words(uint32_t form)
{
    (void)form;
    return 1u << FORM_OF(form);
}

static inline uint32_t most_words(uint32_t form)
{
    (void)form;
    return FORM_OF(form) == 2 ? MOST_WORDS_IN_FORM_2 : MOST_WORDS;
}

// The cells that so many words take, where those are no more than an arena has.
static inline uint32_t cells_for(uint32_t form, uint32_t words)
{
    uint32_t spare = unit_words(form) - 1;
    return ((words + spare) & ~spare) / cell_words(form);
}

// ---- nodes

// An arena, and the form of the pool in it, where the code does not know it.
typedef struct {
    uint32_t *arena;
#if !TWIN_TEMPLATE
    uint32_t form;
#endif
} tree;

static inline tree tree_in(uint32_t form, const uint32_t *arena)
{
    tree t = {(uint32_t *)arena,
#if !TWIN_TEMPLATE
              form
#endif
    };
    (void)form;
    return t;
}

static inline bool is_wide(tree t)
{
    (void)t;
    return FORM_OF(t.form) == 2;
}

static inline uint32_t *node_of(tree t, size_t c)
{
    return t.arena + (is_wide(t) ? 4 * c : 2 * c);
}

static inline uint32_t length_of(tree t, size_t c)
{
    return node_of(t, c)[0];
}

static inline size_t left_of(tree t, size_t c)
{
    uint32_t word = node_of(t, c)[1];
    return is_wide(t) ? word : word & 0xffff;
}

static inline size_t right_of(tree t, size_t c)
{
    const uint32_t *node = node_of(t, c);
    return is_wide(t) ? node[2] : node[1] >> 16;
}

// A place where a link stands: the root, or half of a node's second word, or in form 2 a word of it.
static inline void *left_place(tree t, size_t c)
{
    return node_of(t, c) + 1;
}

static inline void *right_place(tree t, size_t c)
{
    uint32_t *links = node_of(t, c) + 1;
    return is_wide(t) ? (void *)(links + 1) : (void *)((half_word *)links + 1);
}

static inline size_t link_at(tree t, const void *place)
{
    return is_wide(t) ? *(const uint32_t *)place : *(const half_word *)place;
}

static inline void set_link(tree t, void *place, size_t to)
{
    if (is_wide(t))
        *(uint32_t *)place = (uint32_t)to;
    else
        *(half_word *)place = (half_word)to;
}

static inline void put_node(tree t, size_t c, uint32_t n, size_t left, size_t right)
{
    uint32_t *node = node_of(t, c);
    node[0] = n;
    node[1] = (uint32_t)(is_wide(t) ? left : left | right << 16);
    if (is_wide(t))
        node[2] = (uint32_t)right;
}

static inline void clear_node(tree t, size_t c)
{
    put_node(t, c, 0, 0, 0);
}
