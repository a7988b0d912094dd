/* Wrong libraries, to show that the comparison can fail: each wrap stands before the real call and, if BROKEN names
   its kind, slips. Kind 0 is the library as it is. Most slips are those that document 01 lists. */
#include "lingfurrow.h"
#include <stdlib.h>
#include <string.h>

static int broken(int kind)
{
    static int chosen = -1;
    if (chosen < 0) {
        const char *named = getenv("BROKEN");
        chosen = named ? atoi(named) : 0;
    }
    return chosen == kind;
}

#define TREE uint32_t *arena, size_t arena_len, uint32_t *table, size_t table_len
#define TREE_PASSED arena, arena_len, table, table_len
#define SEGMENT                                                                                                       \
    int32_t *arena, size_t arena_len, uint32_t *table, size_t table_len, uint32_t segments, uint32_t *index,          \
        size_t index_len
#define SEGMENT_PASSED arena, arena_len, table, table_len, segments, index, index_len
#define NAMED uint32_t party, uint32_t ticket, uint32_t address, uint32_t words
#define NAMED_PASSED party, ticket, address, words
#define LISTED uint32_t party, const uint32_t *requests, size_t requests_len, uint32_t *answers, size_t answers_len
#define LISTED_PASSED party, requests, requests_len, answers, answers_len

lf_tree_outcome __real_lf_tree_format(uint32_t form, TREE, uint32_t first);
lf_tree_outcome __real_lf_tree_allocate(lf_tree_head head, TREE, uint32_t party, uint32_t words);
lf_tree_outcome __real_lf_tree_release(lf_tree_head head, TREE, NAMED);
lf_answer __real_lf_tree_find(lf_tree_head head, const uint32_t *arena, size_t arena_len, const uint32_t *table,
                              size_t table_len, NAMED);
lf_tree_outcome __real_lf_tree_list(lf_tree_head head, TREE, LISTED);
lf_segment_outcome __real_lf_segment_format(SEGMENT, uint32_t first);
lf_segment_allocation __real_lf_segment_allocate(uint32_t next, SEGMENT, uint32_t party, uint32_t words);
lf_segment_outcome __real_lf_segment_release(uint32_t next, SEGMENT, NAMED);
lf_answer __real_lf_segment_find(uint32_t next, const int32_t *arena, size_t arena_len, const uint32_t *table,
                                 size_t table_len, uint32_t segments, const uint32_t *index, size_t index_len, NAMED);
lf_segment_outcome __real_lf_segment_list(uint32_t next, SEGMENT, LISTED);
lf_tree_slice __real_compare_tree_look(lf_tree_head head, const uint32_t *arena, size_t arena_len,
                                       const uint32_t *table, size_t table_len, const uint32_t *placeholder,
                                       size_t placeholder_len, NAMED);
uint32_t __real_lf_copy_table(const uint32_t *old, size_t old_len, uint32_t *new_table, size_t new_len);

static int is_form(uint32_t form)
{
    return form == 1 || form == 2 || form == 3;
}

/* Is 8 due whatever the form is? */
static int lengths_of_none(size_t arena_len, size_t table_len)
{
    return arena_len == 0 || arena_len % 2 || arena_len > LF_FORM_2_ARENA_WORDS_MAX || table_len == 0 ||
           table_len % 4 || table_len > LF_TABLE_WORDS(LF_RECORDS_MAX);
}

static int is_party(uint32_t party)
{
    return party >= 1 && party <= LF_PARTY_MAX;
}

/* The record with this ticket, in a table of at most the most words; 0 if there is none. */
static const uint32_t *record_of(const uint32_t *table, size_t table_len, uint32_t ticket)
{
    for (size_t at = 0; ticket && table_len <= LF_TABLE_WORDS(LF_RECORDS_MAX) && at + 3 < table_len; at += 4)
        if (table[at] == ticket)
            return table + at;
    return 0;
}

/* The party of the record with this ticket, whoever asks. */
static uint32_t owner(const uint32_t *table, size_t table_len, uint32_t party, uint32_t ticket)
{
    const uint32_t *record = is_party(party) ? record_of(table, table_len, ticket) : 0;
    return record ? record[3] : party;
}

lf_tree_outcome __wrap_lf_tree_format(uint32_t form, TREE, uint32_t first)
{
    if (broken(25) && !is_form(form)) { /* 11, but the head has the form */
        lf_tree_outcome refused = { { 0, 0, form }, { LF_BAD_FORM, 0, 0, 0 } };
        return refused;
    }
    int as_form_1 = broken(33) && form == 3 && arena_len % 8; /* 12 words accepted, no whole number of units */
    int none = broken(16) && first == 0;
    if (broken(15) && first != 0) /* tickets begin at 1, whatever was given */
        first = 1;
    lf_tree_outcome done = __real_lf_tree_format(as_form_1 ? 1 : form, TREE_PASSED, none ? 1 : first);
    if (as_form_1 && done.answer.number == 0)
        done.head.form = 3;
    if (none) /* 0 accepted, as a pool that has no ticket left */
        done.head.next = 0;
    if (broken(1) && (uintptr_t)(table + table_len) % 4096) /* writes one word behind the table, where it can */
        table[table_len] = 0;
    return done;
}

/* The spare words of the first record's block, if that is another's, in form 3. */
static void wipe_spare(lf_tree_head head, uint32_t *arena, const uint32_t *table, uint32_t ticket)
{
    uint32_t end = table[1] + table[2];
    for (; head.form == 3 && table[0] != 0 && table[0] != ticket && end % 8; end++)
        arena[end] = 0;
}

lf_tree_outcome __wrap_lf_tree_allocate(lf_tree_head head, TREE, uint32_t party, uint32_t words)
{
    if (broken(24) && !is_form(head.form) && lengths_of_none(arena_len, table_len)) { /* 8 before 11 */
        lf_tree_outcome refused = { head, { LF_BAD_LENGTHS, 0, 0, 0 } };
        return refused;
    }
    if (broken(26) && head.form == 2 && words > LF_ARENA_WORDS_MAX) /* the limit of form 1 in form 2 */
        words = 0;
    if (broken(2)) /* lengths cut to 32 bits */
        arena_len = (uint32_t)arena_len;
    int by_cells = broken(31) && head.form == 3 && arena_len % 8 == 0; /* form 3 rounds by cells */
    head.form = by_cells ? 1 : head.form;
    lf_tree_outcome done = __real_lf_tree_allocate(head, TREE_PASSED, party, words);
    done.head.form = by_cells ? 3 : done.head.form;
    if (broken(34) && done.answer.number == 0)
        wipe_spare(done.head, arena, table, done.answer.ticket);
    if (broken(41) && done.answer.number == 0) /* every record is party 1's */
        table[record_of(table, table_len, done.answer.ticket) + 3 - table] = 1;
    if (broken(3)) /* always address 0 */
        done.answer.address = 0;
    if (broken(4) && done.answer.number == LF_NO_ROOM) /* a refusal uses up a ticket */
        done.head.next++;
    return done;
}

/* Of equal lengths the later one above: the root and its right son change places. */
static lf_tree_head turned(lf_tree_head head, uint32_t *arena)
{
    uint32_t *root = head.form == 1 && head.root ? arena + 2 * (head.root - 1) : 0;
    uint32_t link = root ? root[1] >> 16 : 0;
    uint32_t *son = link ? arena + 2 * (link - 1) : 0;
    if (!son || son[0] != root[0])
        return head;
    root[1] = (root[1] & 65535) | (son[1] & 65535) << 16;
    son[1] = (son[1] & ~65535u) | head.root;
    head.root = link;
    return head;
}

/* Left and right exchanged in form 2, in the root. */
static void exchange(lf_tree_head head, uint32_t *arena)
{
    uint32_t *root = head.form == 2 && head.root ? arena + 4 * (head.root - 1) : 0;
    uint32_t left = root ? root[1] : 0;
    if (root) {
        root[1] = root[2];
        root[2] = left;
    }
}

/* The ticket of whoever holds this place now. */
static uint32_t holder(const uint32_t *table, size_t table_len, NAMED)
{
    for (size_t at = 0; at + 3 < table_len; at += 4)
        if (table[at + 1] == address && table[at + 2] == words && table[at + 3] == party)
            return table[at];
    return ticket;
}

lf_tree_outcome __wrap_lf_tree_release(lf_tree_head head, TREE, NAMED)
{
    if (broken(35)) /* party not compared */
        party = owner(table, table_len, party, ticket);
    lf_answer found = __real_lf_tree_find(head, TREE_PASSED, NAMED_PASSED);
    lf_tree_outcome as_it_was = { head, found };
    if (broken(5)) /* does nothing */
        return as_it_was;
    if (broken(6) && ticket == 0 && address == 0 && words == 0 && found.number == LF_UNKNOWN_TICKET) {
        as_it_was.answer.number = LF_OK; /* an empty record matched by ticket 0 */
        return as_it_was;
    }
    const uint32_t *record = found.number == LF_UNKNOWN_TICKET ? record_of(table, table_len, ticket) : 0;
    if (broken(38) && record && (record[1] != address || record[2] != words)) { /* 7 for another's ticket */
        as_it_was.answer.number = LF_MISMATCH;
        return as_it_was;
    }
    if (broken(7) && found.number == LF_UNKNOWN_TICKET) /* address and words only */
        ticket = holder(table, table_len, NAMED_PASSED);
    lf_tree_outcome done = __real_lf_tree_release(head, TREE_PASSED, NAMED_PASSED);
    if (broken(8) && done.answer.number == 0)
        done.head = turned(done.head, arena);
    if (broken(27) && done.answer.number == 0)
        exchange(done.head, arena);
    if (broken(9) && done.answer.number == 0 && arena[address] == 0) /* an old header inside a merged block */
        arena[address] = 1;
    return done;
}

/* Find on a copy of the table in which every live record has a party. */
static lf_answer find_without_party(lf_tree_head head, const uint32_t *arena, size_t arena_len, const uint32_t *table,
                                    size_t table_len, NAMED)
{
    uint32_t copy[LF_TABLE_WORDS(LF_RECORDS_MAX)];
    memcpy(copy, table, table_len * sizeof copy[0]);
    for (size_t at = 0; at < table_len; at += 4)
        if (copy[at] && !is_party(copy[at + 3]))
            copy[at + 3] = 1;
    return __real_lf_tree_find(head, arena, arena_len, copy, table_len, NAMED_PASSED);
}

/* Find on a copy of the arena in which the root's fourth word is 0. */
static lf_answer find_without_fourth(lf_tree_head head, const uint32_t *arena, size_t arena_len,
                                     const uint32_t *table, size_t table_len, NAMED)
{
    uint32_t *copy = malloc(arena_len * sizeof copy[0]);
    memcpy(copy, arena, arena_len * sizeof copy[0]);
    copy[4 * (head.root - 1) + 3] = 0;
    lf_answer answer = __real_lf_tree_find(head, copy, arena_len, table, table_len, NAMED_PASSED);
    free(copy);
    return answer;
}

lf_answer __wrap_lf_tree_find(lf_tree_head head, const uint32_t *arena, size_t arena_len, const uint32_t *table,
                              size_t table_len, NAMED)
{
    if (broken(10)) { /* reads one word behind the arena */
        volatile uint32_t read = arena[arena_len];
        (void)read;
    }
    if (broken(39) && is_form(head.form) && !is_party(party)) { /* 12 before 1 */
        lf_answer refused = __real_lf_tree_find(head, TREE_PASSED, NAMED_PASSED);
        refused.number = refused.number == LF_DAMAGED ? LF_BAD_PARTY : refused.number;
        return refused;
    }
    if (broken(46) && table_len <= LF_TABLE_WORDS(LF_RECORDS_MAX) && table_len % 4 == 0) /* stored party not checked */
        return find_without_party(head, TREE_PASSED, NAMED_PASSED);
    if (broken(28) && !is_form(head.form)) /* the form not looked at */
        head.form = 1;
    int rooted = head.root - 1 < arena_len / 4 && arena_len <= LF_FORM_2_ARENA_WORDS_MAX;
    if (broken(29) && head.form == 2 && rooted) /* the fourth word not compared */
        return find_without_fourth(head, arena, arena_len, table, table_len, NAMED_PASSED);
    lf_answer found = __real_lf_tree_find(head, TREE_PASSED, NAMED_PASSED);
    lf_tree_head cells = { head.root, head.next, 1 };
    if (broken(32) && head.form == 3 && found.number == LF_DAMAGED) /* records allowed on cells */
        found = __real_lf_tree_find(cells, TREE_PASSED, NAMED_PASSED);
    return found;
}

lf_tree_slice __wrap_compare_tree_look(lf_tree_head head, const uint32_t *arena, size_t arena_len,
                                       const uint32_t *table, size_t table_len, const uint32_t *placeholder,
                                       size_t placeholder_len, NAMED)
{
    if (broken(37)) /* party not compared in look alone */
        party = owner(table, table_len, party, ticket);
    return __real_compare_tree_look(head, TREE_PASSED, placeholder, placeholder_len, NAMED_PASSED);
}

/* A list served by calls of one request each, a release by the party that the record has. */
static lf_tree_outcome list_by_owners(lf_tree_head head, TREE, LISTED)
{
    lf_tree_outcome done = __real_lf_tree_list(head, TREE_PASSED, party, requests, 0, answers, answers_len);
    for (size_t at = 0; done.answer.number == 0 && at < requests_len; at += 4) {
        uint32_t by = requests[at] == 2 ? owner(table, table_len, party, requests[at + 1]) : party;
        done = __real_lf_tree_list(done.head, TREE_PASSED, by, requests + at, 4, answers + at, 4);
    }
    return done;
}

lf_tree_outcome __wrap_lf_tree_list(lf_tree_head head, TREE, LISTED)
{
    if (broken(40) && requests_len % 4 == 0 && requests_len <= LF_LIST_WORDS(LF_REQUESTS_MAX) &&
        answers_len >= requests_len) /* party taken from the record */
        return list_by_owners(head, TREE_PASSED, LISTED_PASSED);
    if (broken(30) && (requests_len % 4 || answers_len < requests_len)) { /* a list's lengths before 11 */
        lf_tree_outcome refused = { head, { LF_BAD_LENGTHS, 0, 0, 0 } };
        return refused;
    }
    size_t served = broken(11) && requests_len > 4 && requests_len % 4 == 0 ? 4 : requests_len;
    lf_tree_outcome done = __real_lf_tree_list(head, TREE_PASSED, party, requests, served, answers, answers_len);
    for (size_t at = 4; served == 4 && done.answer.number == 0 && at < requests_len && at < answers_len; at++)
        answers[at] = at % 4 ? requests[at] : 0; /* performs the first request and echoes the rest */
    return done;
}

lf_segment_outcome __wrap_lf_segment_format(SEGMENT, uint32_t first)
{
    if (broken(17) && first == 0) { /* 6 before 8 */
        lf_segment_outcome refused = { 0, { LF_UNKNOWN_TICKET, 0, 0, 0 } };
        return refused;
    }
    if (broken(18) && first == 0) /* refuses when all is written */
        __real_lf_segment_format(SEGMENT_PASSED, 1);
    lf_segment_outcome done = __real_lf_segment_format(SEGMENT_PASSED, first);
    if (broken(19) && done.answer.number == LF_BAD_LENGTHS) /* a refused format's head is not zeros */
        done.next = first;
    return done;
}

/* Leaf 0 for a segment that holds only held blocks. */
static void forget_held(const int32_t *arena, uint32_t segments, uint32_t *index)
{
    for (uint32_t at = 0; at < segments; at++)
        if (index[segments + at] == 1 && arena[index[2 * segments + at]] < 0)
            index[segments + at] = 0;
}

/* Blocks that begin in the segment of a granted one above it; its rest was none before the grant. */
static uint32_t blocks_above(const int32_t *arena, size_t arena_len, uint32_t segments, uint32_t address)
{
    size_t at = address - 1, words = (arena_len + segments - 1) / segments, end = (at / words + 1) * words;
    uint32_t count = 0;
    at += (size_t)abs(arena[at]);
    if (at < arena_len && arena[at] > 0)
        at += (size_t)arena[at];
    for (; at < end && at < arena_len; at += (size_t)abs(arena[at]))
        count++;
    return count;
}

/* Places counted wrongly. */
static uint32_t miscounted(lf_segment_allocation done, const int32_t *arena, size_t arena_len, uint32_t segments)
{
    int granted = done.answer.number == 0;
    if (broken(20) && granted) /* blocks above the chosen one counted too */
        return done.places + blocks_above(arena, arena_len, segments, done.answer.address);
    if (broken(21) && granted) /* root not counted */
        return done.places - 1;
    if (broken(22) && done.answer.number == LF_NO_ROOM) /* root not counted where it is too small */
        return 0;
    if (broken(23) && granted) /* levels not counted */
        return done.places - (uint32_t)__builtin_ctz(segments);
    return done.places;
}

lf_segment_allocation __wrap_lf_segment_allocate(uint32_t next, SEGMENT, uint32_t party, uint32_t words)
{
    if (broken(45)) /* party cut to 8 bits */
        party &= 255;
    lf_segment_allocation done = __real_lf_segment_allocate(next, SEGMENT_PASSED, party, words);
    done.places = miscounted(done, arena, arena_len, segments);
    if (broken(12) && done.answer.number == 0)
        forget_held(arena, segments, index);
    if (broken(13)) { /* refuses everything */
        lf_segment_allocation refused = { next, { LF_NO_ROOM, 0, 0, 0 }, 1 };
        return refused;
    }
    return done;
}

lf_segment_outcome __wrap_lf_segment_release(uint32_t next, SEGMENT, NAMED)
{
    lf_segment_outcome done = __real_lf_segment_release(next, SEGMENT_PASSED, NAMED_PASSED);
    if (broken(14) && done.answer.number == 0) /* words of the released block not wiped */
        arena[address] = 1;
    return done;
}

lf_answer __wrap_lf_segment_find(uint32_t next, const int32_t *arena, size_t arena_len, const uint32_t *table,
                                 size_t table_len, uint32_t segments, const uint32_t *index, size_t index_len, NAMED)
{
    if (broken(36)) /* party not compared */
        party = owner(table, table_len, party, ticket);
    return __real_lf_segment_find(next, SEGMENT_PASSED, NAMED_PASSED);
}

lf_segment_outcome __wrap_lf_segment_list(uint32_t next, SEGMENT, LISTED)
{
    if (broken(42) && requests_len == 0 && !is_party(party)) /* whose list it is not asked if it is empty */
        party = 1;
    return __real_lf_segment_list(next, SEGMENT_PASSED, LISTED_PASSED);
}

uint32_t __wrap_lf_copy_table(const uint32_t *old, size_t old_len, uint32_t *new_table, size_t new_len)
{
    if (broken(44) && old_len % 3 == 0 && old_len > 0 && old_len == new_len) { /* three words to a record */
        memcpy(new_table, old, old_len * sizeof old[0]);
        return LF_OK;
    }
    uint32_t number = __real_lf_copy_table(old, old_len, new_table, new_len);
    for (size_t at = 0; broken(43) && number == LF_OK && at < new_len; at += 4)
        if (new_table[at] == 0) /* ticket 0 with words becomes an empty record */
            memset(new_table + at, 0, 4 * sizeof new_table[0]);
    for (size_t at = 0; broken(47) && number == LF_OK && at < new_len; at += 4)
        new_table[at + 3] = 1; /* empty records become party 1's too */
    return number;
}

/* ---- trims */

lf_tree_outcome __real_lf_tree_trim(lf_tree_head head, TREE, NAMED, uint32_t keep);
lf_segment_outcome __real_lf_segment_trim(uint32_t next, SEGMENT, NAMED, uint32_t keep);

/* Words behind the kept ones in their last unit. */
static void wipe_behind(lf_tree_head head, uint32_t *arena, uint32_t end)
{
    uint32_t unit = head.form == 1 ? 2 : head.form == 2 ? 4 : 8;
    for (; end % unit; end++)
        arena[end] = 0;
}

lf_tree_outcome __wrap_lf_tree_trim(lf_tree_head head, TREE, NAMED, uint32_t keep)
{
    lf_answer found = __real_lf_tree_find(head, TREE_PASSED, NAMED_PASSED);
    uint32_t last = found.number == 0 ? arena[address + words - 1] : 0;
    if (broken(51) && found.number == LF_UNKNOWN_TICKET && keep == 0) { /* 2 before 6 */
        lf_tree_outcome refused = { head, { LF_BAD_SIZE, 0, 0, 0 } };
        return refused;
    }
    if (broken(55) && keep > words) /* more than was asked taken for all */
        keep = words;
    lf_tree_outcome done = __real_lf_tree_trim(head, TREE_PASSED, NAMED_PASSED, keep);
    if (done.answer.number != 0)
        return done;
    if (broken(48) && keep < words) /* tail not wiped */
        arena[address + words - 1] = last;
    if (broken(50)) /* record not shortened */
        table[record_of(table, table_len, ticket) + 2 - table] = words;
    if (broken(52)) /* spare words wiped */
        wipe_behind(head, arena, address + keep);
    return done;
}

lf_segment_outcome __wrap_lf_segment_trim(uint32_t next, SEGMENT, NAMED, uint32_t keep)
{
    lf_answer found = __real_lf_segment_find(next, SEGMENT_PASSED, NAMED_PASSED);
    size_t tail = (size_t)address + keep, end = (size_t)address + words;
    size_t segment = found.number == 0 ? tail / ((arena_len + segments - 1) / segments) : 0;
    uint32_t first = found.number == 0 && segment < segments ? index[2 * segments + segment] : 0;
    int32_t behind = found.number == 0 && end < arena_len ? arena[end] : 0;
    lf_segment_outcome done = __real_lf_segment_trim(next, SEGMENT_PASSED, NAMED_PASSED, keep);
    if (done.answer.number != 0 || keep == words)
        return done;
    if (broken(49) && behind > 0) { /* tail not merged */
        arena[tail] -= behind;
        arena[end] = behind;
    }
    if (broken(53)) /* control word of the old length */
        arena[address - 1] = -(int32_t)(words + 1);
    if (broken(54)) /* first block of the tail's segment as before */
        index[2 * segments + segment] = first;
    if (broken(56)) /* the words asked instead of those kept */
        done.answer.words = words;
    return done;
}

/* ---- sessions */

#define STATE uint8_t *state, size_t state_len
#define BURST STATE, const uint8_t *bytes, size_t bytes_len, uint8_t *answers, size_t answers_len
#define BURST_PASSED state, state_len, bytes, bytes_len, answers, answers_len

uint32_t __real_lf_session_start(STATE);
lf_burst __real_lf_session_burst(BURST);
lf_burst __real_lf_session_end(STATE, uint8_t *answers, size_t answers_len);

/* Where the parts of a state lie: kept length, kept bytes, table, arena. */
#define KEPT_LEN 4
#define KEPT 24
#define TABLE 92
#define ARENA 4188

static uint32_t word_at(const uint8_t *state, size_t at)
{
    uint32_t word;
    memcpy(&word, state + at, sizeof word);
    return word;
}

/* The unfinished line, and how long it is. */
static void copy_line(uint8_t *to, const uint8_t *from)
{
    memcpy(to + KEPT_LEN, from + KEPT_LEN, 4);
    memcpy(to + KEPT, from + KEPT, TABLE - KEPT);
}

static void drop_line(uint8_t *state)
{
    static const uint8_t none[TABLE];
    copy_line(state, none);
}

/* Zeros behind the kept bytes, the table and the arena. */
static void wipe_unused(uint8_t *state)
{
    uint32_t kept = word_at(state, KEPT_LEN), words = word_at(state, 8), slots = word_at(state, 12);
    if (kept > TABLE - KEPT || words > 8192 || slots > LF_RECORDS_MAX)
        return;
    memset(state + KEPT + kept, 0, TABLE - KEPT - kept);
    memset(state + TABLE + 16 * slots, 0, ARENA - TABLE - 16 * slots);
    memset(state + ARENA + 4 * words, 0, LF_STATE_BYTES - ARENA - 4 * words);
}

/* Party 1 in every live record. */
static void take_over(uint8_t *state)
{
    static const uint32_t party = 1;
    for (size_t at = TABLE; at < ARENA; at += 16)
        if (word_at(state, at))
            memcpy(state + at + 12, &party, sizeof party);
}

/* A burst on a state that is put right first. */
static lf_burst burst_on_mended(void (*mend)(uint8_t *), BURST)
{
    static uint8_t mended[LF_STATE_BYTES];
    memcpy(mended, state, LF_STATE_BYTES);
    mend(mended);
    lf_burst done = __real_lf_session_burst(mended, state_len, bytes, bytes_len, answers, answers_len);
    if (done.number != LF_DAMAGED)
        memcpy(state, mended, LF_STATE_BYTES);
    return done;
}

/* Line by line, as long as the longest answer has room. */
static lf_burst burst_by_longest(BURST)
{
    lf_burst all = { LF_OK, 0, 0 };
    while (all.taken < bytes_len) {
        const uint8_t *from = bytes + all.taken, *feed = memchr(from, '\n', bytes_len - all.taken);
        if (feed && answers_len - all.written < LF_ANSWER_BYTES) {
            all.number = LF_MORE_ROOM;
            break;
        }
        size_t len = feed ? (size_t)(feed - from) + 1 : bytes_len - all.taken;
        lf_burst one = __real_lf_session_burst(state, state_len, from, len, answers + all.written,
                                               answers_len - all.written);
        all.taken += one.taken;
        all.written += one.written;
    }
    return all;
}

/* Slips of a burst that stops for want of room; `before` is the state that it was given. */
static lf_burst stopped_wrongly(lf_burst done, uint8_t *state, const uint8_t *before)
{
    if (broken(58) && done.taken == 0) /* kept bytes lost */
        drop_line(state);
    if (broken(59)) /* taken one too many */
        done.taken++;
    if (broken(60)) /* 10 told as 0 */
        done.number = LF_OK;
    if (broken(61)) { /* taken for a refusal: the lines that were served are undone */
        memcpy(state, before, LF_STATE_BYTES);
        done.taken = done.written = 0;
    }
    return done;
}

/* Slips of a burst that takes all. */
static void taken_wrongly(lf_burst done, uint8_t *state, uint8_t *answers, size_t answers_len)
{
    if (broken(65) && word_at(state, KEPT_LEN) == 65) { /* 64 bytes kept of a longer line */
        state[KEPT_LEN] = 64;
        state[KEPT + 64] = 0;
    }
    if (broken(66) && answers_len < LF_STATE_BYTES) /* answer bytes wiped beyond those written */
        memset(answers + done.written, 0, answers_len - done.written);
    if (broken(67) && state[0] == 3) /* a stopped session keeps no line */
        drop_line(state);
}

lf_burst __wrap_lf_session_burst(BURST)
{
    static uint8_t before[LF_STATE_BYTES];
    int suits = state_len == LF_STATE_BYTES;
    if (broken(62) && bytes_len == 0) { /* no bytes: state not looked at */
        lf_burst none = { LF_OK, 0, 0 };
        return none;
    }
    if (broken(63) && suits) /* unused bytes not compared */
        return burst_on_mended(wipe_unused, BURST_PASSED);
    if (broken(64) && suits) /* another party's record taken for a session's */
        return burst_on_mended(take_over, BURST_PASSED);
    if (suits)
        memcpy(before, state, LF_STATE_BYTES);
    if (broken(74) && answers_len > 0) /* an answer that just fits has no room */
        answers_len--;
    int at_line = suits && bytes_len > 0 && word_at(state, KEPT_LEN) == 0;
    if (broken(75) && at_line && bytes[0] == 'P' && word_at(state, 0) == 2) /* a second P line begins anew */
        __real_lf_session_start(state, state_len);
    lf_burst probe = { LF_DAMAGED, 0, 0 };
    if (broken(57)) /* room for the longest answer asked for, whatever the answer is */
        probe = __real_lf_session_burst(state, state_len, bytes, 0, answers, 0);
    if (probe.number == LF_OK)
        return burst_by_longest(BURST_PASSED);
    lf_burst done = __real_lf_session_burst(BURST_PASSED);
    if (done.number == LF_MORE_ROOM)
        done = stopped_wrongly(done, state, before);
    if (done.number == LF_OK)
        taken_wrongly(done, state, answers, answers_len);
    return done;
}

lf_burst __wrap_lf_session_end(STATE, uint8_t *answers, size_t answers_len)
{
    static uint8_t before[LF_STATE_BYTES];
    memcpy(before, state, state_len < LF_STATE_BYTES ? state_len : LF_STATE_BYTES);
    lf_burst done = __real_lf_session_end(state, state_len, answers, answers_len);
    if (broken(76) && done.number == LF_OK) { /* its line answered, but not done */
        memcpy(state, before, LF_STATE_BYTES);
        drop_line(state);
    }
    if (broken(68) && done.number == LF_OK) /* leaves its line */
        copy_line(state, before);
    if (broken(69) && done.number == LF_MORE_ROOM) /* clears a line that had no room */
        drop_line(state);
    if (broken(70) && done.number == LF_OK && word_at(before, KEPT_LEN) == 0) /* no line served as an empty one */
        done = __real_lf_session_burst(state, state_len, (const uint8_t *)"\n", 1, answers, answers_len);
    if (broken(71) && done.number == LF_DAMAGED && word_at(before, KEPT_LEN) == 0) /* no line: state not looked at */
        done.number = LF_OK;
    return done;
}

uint32_t __wrap_lf_session_start(STATE)
{
    if (broken(72) && state_len > LF_STATE_BYTES) /* begins in a longer buffer, though it says 8 */
        __real_lf_session_start(state, LF_STATE_BYTES);
    uint32_t number = __real_lf_session_start(state, state_len);
    if (broken(73) && number == LF_OK) /* bytes behind the line left as they were found */
        state[TABLE - 1] = 1;
    return number;
}
