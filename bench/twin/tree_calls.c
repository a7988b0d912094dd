// The calls of the tree pool: by the form, or 11 where there is no such form.
#include "twin.h"

#if TWIN_TEMPLATE
#define BY_FORM(form, call, ...)                                                                                     \
    switch (form) {                                                                                                  \
    case 1:                                                                                                          \
        return call##_1(__VA_ARGS__);                                                                                \
    case 2:                                                                                                          \
        return call##_2(__VA_ARGS__);                                                                                \
    case 3:                                                                                                          \
        return call##_3(__VA_ARGS__);                                                                                \
    }
#else
#define BY_FORM(form, call, ...)                                                                                     \
    if (form - 1 < FORMS)                                                                                            \
        return call(__VA_ARGS__);
#endif

lf_tree_outcome TWIN(tree_format)(uint32_t form, uint32_t *restrict arena, size_t arena_len, uint32_t *restrict table,
                                  size_t table_len, uint32_t first)
{
    BY_FORM(form, formatted, form, arena, arena_len, table, table_len, first)
    return tree_refused(no_head, BAD_FORM);
}

lf_tree_outcome TWIN(tree_allocate)(lf_tree_head head, uint32_t *restrict arena, size_t arena_len,
                                    uint32_t *restrict table, size_t table_len, uint32_t party, uint32_t words)
{
    BY_FORM(head.form, allocated, head, arena, arena_len, table, table_len, party, words)
    return tree_refused(head, BAD_FORM);
}

lf_tree_outcome TWIN(tree_release)(lf_tree_head head, uint32_t *restrict arena, size_t arena_len,
                                   uint32_t *restrict table, size_t table_len, uint32_t party, uint32_t ticket,
                                   uint32_t address, uint32_t words)
{
    row r = {ticket, address, words, party};
    BY_FORM(head.form, released, head, arena, arena_len, table, table_len, r)
    return tree_refused(head, BAD_FORM);
}

lf_tree_outcome TWIN(tree_trim)(lf_tree_head head, uint32_t *restrict arena, size_t arena_len,
                                uint32_t *restrict table, size_t table_len, uint32_t party, uint32_t ticket,
                                uint32_t address, uint32_t words, uint32_t keep)
{
    row r = {ticket, address, words, party};
    BY_FORM(head.form, trimmed, head, arena, arena_len, table, table_len, r, keep)
    return tree_refused(head, BAD_FORM);
}

lf_answer TWIN(tree_find)(lf_tree_head head, const uint32_t *restrict arena, size_t arena_len,
                          const uint32_t *restrict table, size_t table_len, uint32_t party, uint32_t ticket,
                          uint32_t address, uint32_t words)
{
    row r = {ticket, address, words, party};
    BY_FORM(head.form, found, head, arena, arena_len, table, table_len, r)
    return refused(BAD_FORM);
}

lf_tree_outcome TWIN(tree_list)(lf_tree_head head, uint32_t *restrict arena, size_t arena_len,
                                uint32_t *restrict table, size_t table_len, uint32_t party,
                                const uint32_t *restrict requests, size_t requests_len, uint32_t *restrict answers,
                                size_t answers_len)
{
    BY_FORM(head.form, listed, head, arena, arena_len, table, table_len, party, requests, requests_len, answers,
            answers_len)
    return tree_refused(head, BAD_FORM);
}
