// The calls of the tree pool, once the form is known.
#include "twin.h"

// An allocation on a sound pool, whose head moves on. The root is read back as a link: read as a word it would wait for
// a store of half a word.
static lf_answer tree_grant(lf_tree_head *head, uint32_t *restrict arena, uint32_t *restrict table, size_t slots,
                            uint32_t party, uint32_t words)
{
    uint32_t form = FORM_OF(head->form), root = head->root;
    if (words == 0 || words > most_words(form))
        return refused(BAD_WORDS);
    size_t slot = empty_slot(table, slots);
    if (slot == slots)
        return refused(NO_RECORD);
    if (head->next == 0)
        return refused(NO_TICKET);
    tree t = tree_in(form, arena);
    void *place = leftmost_fit(t, &root, cells_for(form, words));
    if (place == NULL)
        return refused(NO_ROOM);
    row new = {head->next, (uint32_t)(cell_words(form) * (link_at(t, place) - 1)), words, party};
    take_cells(t, place, cells_for(form, words));
    write_row(table, slot, new);
    head->root = (uint32_t)link_at(t, &root);
    head->next = next_after(head->next);
    return succeeded(new);
}

// A release on a sound pool.
static lf_answer tree_vacate(lf_tree_head *head, uint32_t *restrict arena, uint32_t *restrict table, size_t slots,
                             row r)
{
    uint32_t form = FORM_OF(head->form), root = head->root;
    named at = named_slot(table, slots, r);
    if (at.number != DONE)
        return refused(at.number);
    tree t = tree_in(form, arena);
    size_t lo = r.address / cell_words(form);
    give_cells(t, &root, lo, lo + cells_for(form, r.words));
    write_row(table, at.slot, (row){0, 0, 0, 0});
    head->root = (uint32_t)link_at(t, &root);
    return succeeded(r);
}

// A trim on a sound pool. A tail inside the last kept unit gives no cell back.
static lf_answer tree_cut(lf_tree_head *head, uint32_t *restrict arena, uint32_t *restrict table, size_t slots, row r,
                          uint32_t keep)
{
    uint32_t form = FORM_OF(head->form), root = head->root;
    named at = named_slot(table, slots, r);
    if (at.number != DONE)
        return refused(at.number);
    if (keep == 0 || keep > r.words)
        return refused(BAD_WORDS);
    tree t = tree_in(form, arena);
    size_t first = r.address / cell_words(form), lo = first + cells_for(form, keep);
    size_t hi = first + cells_for(form, r.words);
    if (lo < hi) {
        give_cells(t, &root, lo, hi);
        head->root = (uint32_t)link_at(t, &root);
    }
    r.words = keep;
    write_row(table, at.slot, r);
    return succeeded(r);
}

static lf_answer tree_serve(lf_tree_head *head, uint32_t *restrict arena, uint32_t *restrict table, size_t slots,
                            uint32_t party, const uint32_t *q)
{
    if (q[0] == 1 && (q[2] | q[3]) == 0)
        return tree_grant(head, arena, table, slots, party, q[1]);
    if (q[0] == 2)
        return tree_vacate(head, arena, table, slots, (row){q[1], q[2], q[3], party});
    return refused(BAD_REQUEST);
}

static lf_tree_outcome formatted(uint32_t form, uint32_t *restrict arena, size_t arena_len, uint32_t *restrict table,
                                 size_t table_len, uint32_t first)
{
    if (!tree_lengths_suit(form, arena_len, table_len))
        return tree_refused(no_head, BAD_LENGTHS);
    if (first == 0)
        return tree_refused(no_head, UNKNOWN_TICKET);
    memset(arena, 0, arena_len * sizeof arena[0]);
    memset(table, 0, table_len * sizeof table[0]);
    arena[0] = (uint32_t)(arena_len / cell_words(form));
    return (lf_tree_outcome){{1, first, form}, {DONE, 0, 0, 0}};
}

static lf_tree_outcome allocated(lf_tree_head head, uint32_t *restrict arena, size_t arena_len,
                                 uint32_t *restrict table, size_t table_len, uint32_t party, uint32_t words)
{
    uint32_t number = tree_gate(head, arena, arena_len, table, table_len, party);
    if (number != DONE)
        return tree_refused(head, number);
    lf_answer answer = tree_grant(&head, arena, table, table_len / RECORD_WORDS, party, words);
    return (lf_tree_outcome){head, answer};
}

static lf_tree_outcome released(lf_tree_head head, uint32_t *restrict arena, size_t arena_len,
                                uint32_t *restrict table, size_t table_len, row r)
{
    uint32_t number = tree_gate(head, arena, arena_len, table, table_len, r.party);
    if (number != DONE)
        return tree_refused(head, number);
    lf_answer answer = tree_vacate(&head, arena, table, table_len / RECORD_WORDS, r);
    return (lf_tree_outcome){head, answer};
}

static lf_tree_outcome trimmed(lf_tree_head head, uint32_t *restrict arena, size_t arena_len,
                               uint32_t *restrict table, size_t table_len, row r, uint32_t keep)
{
    uint32_t number = tree_gate(head, arena, arena_len, table, table_len, r.party);
    if (number != DONE)
        return tree_refused(head, number);
    lf_answer answer = tree_cut(&head, arena, table, table_len / RECORD_WORDS, r, keep);
    return (lf_tree_outcome){head, answer};
}

static lf_answer found(lf_tree_head head, const uint32_t *restrict arena, size_t arena_len,
                       const uint32_t *restrict table, size_t table_len, row r)
{
    uint32_t number = tree_gate(head, arena, arena_len, table, table_len, r.party);
    if (number == DONE)
        number = named_slot(table, table_len / RECORD_WORDS, r).number;
    return number == DONE ? succeeded(r) : refused(number);
}

static lf_tree_outcome listed(lf_tree_head head, uint32_t *restrict arena, size_t arena_len, uint32_t *restrict table,
                              size_t table_len, uint32_t party, const uint32_t *restrict requests,
                              size_t requests_len, uint32_t *restrict answers, size_t answers_len)
{
    if (!list_suits(requests_len, answers_len))
        return tree_refused(head, BAD_LENGTHS);
    uint32_t number = tree_gate(head, arena, arena_len, table, table_len, party);
    if (number != DONE)
        return tree_refused(head, number);
    for (size_t i = 0; i < requests_len; i += REQUEST_WORDS)
        put_answer(answers + i, tree_serve(&head, arena, table, table_len / RECORD_WORDS, party, requests + i));
    return (lf_tree_outcome){head, {DONE, 0, 0, 0}};
}
