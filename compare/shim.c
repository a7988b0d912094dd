/* What Rust cannot link itself: the header's inline looks. The prototypes are repeated here against
   the header, so a library whose interface moved away from what abi.rs declares does not compile. */
#include "lingfurrow.h"

#define WORDS(size) ((size) / sizeof(uint32_t))
_Static_assert(WORDS(sizeof(lf_tree_head)) == 3, "head");
_Static_assert(WORDS(sizeof(lf_answer)) == 4, "answer");
_Static_assert(WORDS(sizeof(lf_tree_outcome)) == 7, "tree outcome");
_Static_assert(WORDS(sizeof(lf_segment_outcome)) == 5, "segment outcome");
_Static_assert(WORDS(sizeof(lf_segment_allocation)) == 6, "segment allocation");
_Static_assert(offsetof(lf_burst, taken) == 8 && offsetof(lf_burst, written) == 16 && sizeof(lf_burst) == 24, "burst");
_Static_assert(LF_STATE_BYTES == 36956, "state of a session");

#define TREE uint32_t *, size_t, uint32_t *, size_t
#define READ_TREE const uint32_t *, size_t, const uint32_t *, size_t
#define SEGMENT int32_t *, size_t, uint32_t *, size_t, uint32_t, uint32_t *, size_t
#define READ_SEGMENT const int32_t *, size_t, const uint32_t *, size_t, uint32_t, const uint32_t *, size_t
#define LISTED const uint32_t *, size_t, uint32_t *, size_t

lf_tree_outcome lf_tree_format(uint32_t, TREE, uint32_t);
lf_tree_outcome lf_tree_allocate(lf_tree_head, TREE, uint32_t, uint32_t);
lf_tree_outcome lf_tree_release(lf_tree_head, TREE, uint32_t, uint32_t, uint32_t, uint32_t);
lf_tree_outcome lf_tree_trim(lf_tree_head, TREE, uint32_t, uint32_t, uint32_t, uint32_t, uint32_t);
lf_answer lf_tree_find(lf_tree_head, READ_TREE, uint32_t, uint32_t, uint32_t, uint32_t);
lf_tree_outcome lf_tree_list(lf_tree_head, TREE, uint32_t, LISTED);
lf_segment_outcome lf_segment_format(SEGMENT, uint32_t);
lf_segment_allocation lf_segment_allocate(uint32_t, SEGMENT, uint32_t, uint32_t);
lf_segment_outcome lf_segment_release(uint32_t, SEGMENT, uint32_t, uint32_t, uint32_t, uint32_t);
lf_segment_outcome lf_segment_trim(uint32_t, SEGMENT, uint32_t, uint32_t, uint32_t, uint32_t, uint32_t);
lf_answer lf_segment_find(uint32_t, READ_SEGMENT, uint32_t, uint32_t, uint32_t, uint32_t);
lf_segment_outcome lf_segment_list(uint32_t, SEGMENT, uint32_t, LISTED);
uint32_t lf_copy_table(const uint32_t *, size_t, uint32_t *, size_t);
uint32_t lf_session_start(uint8_t *, size_t);
lf_burst lf_session_burst(uint8_t *, size_t, const uint8_t *, size_t, uint8_t *, size_t);
lf_burst lf_session_end(uint8_t *, size_t, uint8_t *, size_t);

lf_tree_slice compare_tree_look(lf_tree_head head, const uint32_t *arena, size_t arena_len, const uint32_t *table,
                                size_t table_len, const uint32_t *placeholder, size_t placeholder_len,
                                uint32_t party, uint32_t ticket, uint32_t address, uint32_t words)
{
    return lf_tree_look(head, arena, arena_len, table, table_len, placeholder, placeholder_len, party, ticket,
                        address, words);
}

lf_segment_slice compare_segment_look(uint32_t next, const int32_t *arena, size_t arena_len, const uint32_t *table,
                                      size_t table_len, uint32_t segments, const uint32_t *index, size_t index_len,
                                      const int32_t *placeholder, size_t placeholder_len, uint32_t party,
                                      uint32_t ticket, uint32_t address, uint32_t words)
{
    return lf_segment_look(next, arena, arena_len, table, table_len, segments, index, index_len, placeholder,
                           placeholder_len, party, ticket, address, words);
}
