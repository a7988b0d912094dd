/* Lingfurrow: a message pool for gateway firmware, in C.
 *
 * You lend a pool some memory. It hands out runs of words from it, each at the lowest address where there is room, and
 * each under a ticket, a number that is given out once. To give a run back you name its ticket, address and words, and
 * all three must match: an old release that comes in again is refused, though address and words may fit what lies there
 * by then. Every call checks the pool before it acts, so you need check nothing before calling, and a refused call
 * leaves every word as it was.
 *
 * Two engines keep a pool, with the same calls and the same numbers: the tree pool, lf_tree_..., and the segment pool,
 * lf_segment_... They store different words, so a pool stays with the engine that formatted it.
 *
 * MEMORY THAT YOU LEND, the same at every call on a pool; lengths count words of 32 bits:
 *   arena     what is handed out.
 *             Tree pool: uint32_t, a whole number of units, as many words as FORM below says. A run takes whole units,
 *             and its address is the first word of one.
 *             Segment pool: int32_t, from 2 to 16,384. A run takes one word more, the control word before its address.
 *   table     uint32_t, LF_TABLE_WORDS(n) for at most n runs at a time; n is 1 to 256. A record is four words: ticket,
 *             address, words, party.
 *   segments  segment pool: a power of two from 1 to 256; the search for room scans one segment.
 *   index     segment pool: uint32_t, LF_INDEX_WORDS(segments).
 * No pointer is kept after a call. Between calls you write only to the words of runs that you hold, and to the rest of
 * a run's last unit, which no other run has; all other words are the pool's. If one of those changes, the next call
 * answers LF_DAMAGED, unless what is there then is again a pool in order.
 *
 * FORM: how a tree pool is stored. Format is given the number, and the head carries it from then on.
 *   form  unit     arena, a multiple of it  most words to ask for
 *     1   2 words  2 to 16,384                 16,384
 *     2   4 words  4 to 1,048,576           1,048,576
 *     3   8 words  8 to 16,384                 16,384
 * Form 3 is for what moves whole groups of eight words and clobbers the rest of a group: no two runs share one, if the
 * arena begins where a group does.
 * Nothing turns a pool of one form into another. The segment pool has one form only, without a number.
 *
 * HEAD: the part of the pool that you keep. Format hands back the first one; each later call takes it, and those that
 * can change the pool hand back the next. Keep that one, also when the call was refused (then it is the same). But a
 * refused format hands back zeros, which belong to no pool: one that lay there before goes on with the head it had.
 *   tree pool: lf_tree_head, the link to the tree of free blocks, the next ticket and the form. A head of another form
 *   is a wrong head like any other: it is refused, unless the buffers are a pool in that form too.
 *   segment pool: a uint32_t, the next ticket
 *
 * PARTY: whose run it is, a number from 1 to 255. Several parties share a pool, each call is one party's, and a list is
 * one party's as a whole. A run belongs to the party that asked for it. To the others its ticket is as good as dead:
 * they are told LF_UNKNOWN_TICKET, whatever address and words they name. Room, records and ticket numbers are shared.
 * The words are not hidden: whoever has the arena reads it. A program for one party passes 1.
 * TICKET: counted up from the number that format is given, each once, never 0. After 4,294,967,295 none is left.
 * ADDRESS: where a run begins, as an index: arena[address] to arena[address + words - 1] are yours.
 *
 * RESTART: a box that lost power formats again, and releases from before it can still come in. None of them fits a run
 * of the new pool if format is given a number above every ticket that was given out before. Two ways to have one:
 *   - Store the head's next ticket where a power loss does not reach it, after each grant and before anyone is told the
 *     new ticket; format with the stored number. Once that is 0 no ticket is left, and format refuses it.
 *   - Count boots there, from 1 on, and format with 65,536 times the count: the boot in the upper 16 bits, its tickets
 *     in the lower. This serves 65,535 boots, as long as none gives out more than 65,536 tickets.
 *
 * WHAT IS PROVED (crates/pool_c, by the Rattle prover): for all numbers and all contents of the buffers, each function
 * of the archive returns, touches nothing outside the buffers, and both its outcome and every word that it leaves are
 * those that crates/calls/specs/Step.antt defines, and Search.antt there for the places that an allocation reports. Of
 * parties (Private.antt there): what release, find and look answer a party, the head aside, depends only on its own
 * records and words, its arguments, the form, the lent lengths and whether the pool is in order. Of restarts
 * (Restart.antt there): no ticket below the number given to format is ever live in the new pool, as long as each call
 * that is not refused gets head and table as the one before left them, and no other format, nor a copy of an old table,
 * is accepted there. Of sessions (crates/session/specs, Calls.antt and Bursts.antt): every byte that the three calls
 * leave, and that bursts cut anywhere, with any room, bytes not taken handed over again, come to the same answers and
 * the same state as one burst with room enough.
 *
 * WHAT IS NOT PROVED, and is yours to see to:
 *   - Pointers are not null, not even with length 0, aligned to 4 bytes, and good for their length.
 *   - Each party's calls pass that party's number.
 *   - After a restart, format is given a number above every earlier ticket.
 *   - A buffer that a call writes overlaps no other buffer of that call. While a call runs, no interrupt, other core or
 *     transfer unit writes to its buffers, or reads those that the call writes.
 *   - The archive links on x86-64 Linux. It needs memset and memcpy, from a C library or your own, and
 *     nothing else.
 *   - Stack, as seen on x86-64, on any memory, at most:
 *       tree pools of up to  1,024 words and  16 records    3 KB
 *                            4,096 words and  64 records   17 KB
 *                           16,384 words and  16 records   13 KB
 *                           16,384 words and 256 records   23 KB
 *       and of form 2       65,536 words and 256 records   28 KB
 *                        1,048,576 words and  16 records   13 KB
 *                        1,048,576 words and 256 records   36 KB
 *       segment pools of any size                           5 KB
 *       sessions of up to    1,024 words and  16 records   40 KB
 *                            8,192 words and 256 records   57 KB
 *   - Time: it grows with arena and table, since each call checks the whole pool, damaged or not. On damaged memory a
 *     call takes no longer than the slowest on a sound pool of the same lengths was seen to take (docs/benchmark.md).
 *     A list checks the pool once.
 *   - This header is C99: that it fits the archive, and that its two inline look functions do what they say, is tested
 *     (examples/) and not proved. Nor is the compiler that made the archive, LLVM.
 */
#ifndef LINGFURROW_H
#define LINGFURROW_H

#include <stddef.h>
#include <stdint.h>

#ifdef __cplusplus
extern "C" {
#endif

/* ---- numbers that a call answers
 *
 * Where several would fit, the first of this order is given: 11, 8, 1, 12, 9; then 2, 3, 4, 5 to an allocation, 6, 7 to
 * a release or find, 6, 7, 2 to a trim, 6 to a format. Any call can answer 8, any of the tree pool 11, and any on a
 * pool but format 1 and 12. */
#define LF_OK 0u             /* done */
#define LF_DAMAGED 1u        /* lengths are right, but head and buffers are not a pool in order */
#define LF_BAD_SIZE 2u       /* words asked are 0, or above the most: 16,384, in form 2 of the tree pool 1,048,576; to a
                                trim: words to keep are 0, or above those asked */
#define LF_NO_RECORD 3u      /* the table is full */
#define LF_NO_TICKET 4u      /* no ticket is left */
#define LF_NO_ROOM 5u        /* no free run is long enough */
#define LF_UNKNOWN_TICKET 6u /* the party has no run of this ticket: released, never given out, another party's, or 0;
                                to a format: first is 0 */
#define LF_MISMATCH 7u       /* the ticket is live, but address or words are not its own */
#define LF_BAD_LENGTHS 8u    /* a length or the number of segments is out of range, or a list's lengths don't suit */
#define LF_BAD_REQUEST 9u    /* in a list: a request of unknown kind, or with spare words that are not zero */
#define LF_MORE_ROOM 10u      /* of a burst or an end call alone, and no refusal: the next answer has no room */
#define LF_BAD_FORM 11u      /* the tree pool has no such form */
#define LF_BAD_PARTY 12u     /* the party is not 1 to 255; also to a list without a request */

/* ---- limits and lengths */
#define LF_ARENA_WORDS_MAX 16384u          /* of tree pools in forms 1 and 3 and of segment pools */
#define LF_FORM_2_ARENA_WORDS_MAX 1048576u /* of tree pools in form 2 */
#define LF_RECORDS_MAX 256u
#define LF_SEGMENTS_MAX 256u
#define LF_REQUESTS_MAX 1024u
#define LF_PARTY_MAX 255u
#define LF_TABLE_WORDS(records) (4u * (records))
#define LF_OLD_TABLE_WORDS(records) (3u * (records)) /* before there were parties */
#define LF_INDEX_WORDS(segments) (3u * (segments))
#define LF_STATE_BYTES 36956u /* of a session of the text program */
#define LF_ANSWER_BYTES 35u   /* no answer line is longer */
#define LF_LIST_WORDS(requests) (4u * (requests))

/* ---- requests of a list: four words each
 *
 *   { LF_REQUEST_ALLOCATE, words, 0, 0 }
 *   { LF_REQUEST_RELEASE, ticket, address, words }
 *
 * Each is answered by four words in the answer buffer: number, ticket, address, words. */
#define LF_REQUEST_ALLOCATE 1u
#define LF_REQUEST_RELEASE 2u

/* ---- what calls take and hand back */

typedef struct {
    uint32_t root, next, form;
} lf_tree_head;

/* number is LF_OK or the reason of the refusal. ticket, address and words are those of the run that was granted,
 * released, found or trimmed, as it is then; format and list, and every refusal, give zeros. */
typedef struct {
    uint32_t number, ticket, address, words;
} lf_answer;

typedef struct {
    lf_tree_head head;
    lf_answer answer;
} lf_tree_outcome;

typedef struct {
    uint32_t next;
    lf_answer answer;
} lf_segment_outcome;

/* The outcome of lf_segment_allocate, and how many places its search looked at. */
typedef struct {
    uint32_t next;
    lf_answer answer;
    uint32_t places;
} lf_segment_allocation;

/* ---- the tree pool */

/* Makes a pool of this form in which all is free and the next ticket is `first`, whatever the buffers held; FORM and
 * RESTART above say which numbers to give. Refused, with a head of zeros: LF_BAD_FORM, LF_BAD_LENGTHS,
 * LF_UNKNOWN_TICKET if `first` is 0. */
lf_tree_outcome lf_tree_format(uint32_t form, uint32_t *arena, size_t arena_len, uint32_t *table, size_t table_len,
                               uint32_t first);

/* Takes a run of `words` words for this party, at the lowest address where there is room. All its words read zero.
 * Refused: LF_BAD_SIZE, LF_NO_RECORD, LF_NO_TICKET, LF_NO_ROOM. */
lf_tree_outcome lf_tree_allocate(lf_tree_head head, uint32_t *arena, size_t arena_len, uint32_t *table,
                                 size_t table_len, uint32_t party, uint32_t words);

/* Gives a run of this party back. Its words are wiped, and it becomes one with the free runs that it touches. Refused:
 * LF_UNKNOWN_TICKET, as for each release that comes in again, and for another party's run; LF_MISMATCH. */
lf_tree_outcome lf_tree_release(lf_tree_head head, uint32_t *arena, size_t arena_len, uint32_t *table,
                                size_t table_len, uint32_t party, uint32_t ticket, uint32_t address, uint32_t words);

/* Gives back the tail of a run of this party that was taken too long, and keeps its first `keep` words, 1 up to all.
 * The ticket stays live, and from then on the run is named with the words kept: an old release with the longer length
 * is LF_MISMATCH. The units beyond those that the kept words take are wiped and become one with the free run that they
 * touch; the kept words stay, and so do the words behind them in their last unit. Refused: LF_UNKNOWN_TICKET,
 * LF_MISMATCH, LF_BAD_SIZE. */
lf_tree_outcome lf_tree_trim(lf_tree_head head, uint32_t *arena, size_t arena_len, uint32_t *table, size_t table_len,
                             uint32_t party, uint32_t ticket, uint32_t address, uint32_t words, uint32_t keep);

/* Does this party hold this run? Changes nothing, and answers the number that a release of it would get. */
lf_answer lf_tree_find(lf_tree_head head, const uint32_t *arena, size_t arena_len, const uint32_t *table,
                       size_t table_len, uint32_t party, uint32_t ticket, uint32_t address, uint32_t words);

/* Serves the requests of a list one after another, as single calls of this party would, with one check of the pool.
 * Each gets its four words in `answers`; one that is refused gets its number there, and the rest go on. Answer words
 * beyond the list stay. The outcome's own answer tells whether the list was served at all: it is refused whole,
 * LF_BAD_LENGTHS, if requests_len is no multiple of four or above LF_LIST_WORDS(LF_REQUESTS_MAX), or answers_len is
 * below it. A list has no trims. */
lf_tree_outcome lf_tree_list(lf_tree_head head, uint32_t *arena, size_t arena_len, uint32_t *table, size_t table_len,
                             uint32_t party, const uint32_t *requests, size_t requests_len, uint32_t *answers,
                             size_t answers_len);

typedef struct {
    const uint32_t *words;
    size_t len;
} lf_tree_slice;

/* The words of the run if find answers LF_OK, else the placeholder, whole. */
static inline lf_tree_slice lf_tree_look(lf_tree_head head, const uint32_t *arena, size_t arena_len,
                                         const uint32_t *table, size_t table_len, const uint32_t *placeholder,
                                         size_t placeholder_len, uint32_t party, uint32_t ticket, uint32_t address,
                                         uint32_t words)
{
    lf_tree_slice slice;
    if (lf_tree_find(head, arena, arena_len, table, table_len, party, ticket, address, words).number == LF_OK) {
        slice.words = arena + address;
        slice.len = words;
    } else {
        slice.words = placeholder;
        slice.len = placeholder_len;
    }
    return slice;
}

/* ---- the segment pool
 *
 * Each call does what the tree pool's call of that name does, and is refused as that is, LF_BAD_FORM aside. The head is
 * the next ticket alone. */

lf_segment_outcome lf_segment_format(int32_t *arena, size_t arena_len, uint32_t *table, size_t table_len,
                                     uint32_t segments, uint32_t *index, size_t index_len, uint32_t first);

/* `places` is 1 with LF_NO_ROOM, 0 with any other refusal, else 1, plus log2(segments), plus the number of blocks, free
 * or held, that begin in the segment of the granted one at or below it. These are the steps of the search; they are at
 * most 1 + log2(segments) + arena_len / segments rounded up, so an installer can promise 73 for 16,384 words and 256
 * segments. */
lf_segment_allocation lf_segment_allocate(uint32_t next, int32_t *arena, size_t arena_len, uint32_t *table,
                                          size_t table_len, uint32_t segments, uint32_t *index, size_t index_len,
                                          uint32_t party, uint32_t words);

lf_segment_outcome lf_segment_release(uint32_t next, int32_t *arena, size_t arena_len, uint32_t *table,
                                      size_t table_len, uint32_t segments, uint32_t *index, size_t index_len,
                                      uint32_t party, uint32_t ticket, uint32_t address, uint32_t words);

lf_segment_outcome lf_segment_trim(uint32_t next, int32_t *arena, size_t arena_len, uint32_t *table, size_t table_len,
                                   uint32_t segments, uint32_t *index, size_t index_len, uint32_t party,
                                   uint32_t ticket, uint32_t address, uint32_t words, uint32_t keep);

lf_answer lf_segment_find(uint32_t next, const int32_t *arena, size_t arena_len, const uint32_t *table,
                          size_t table_len, uint32_t segments, const uint32_t *index, size_t index_len,
                          uint32_t party, uint32_t ticket, uint32_t address, uint32_t words);

lf_segment_outcome lf_segment_list(uint32_t next, int32_t *arena, size_t arena_len, uint32_t *table, size_t table_len,
                                   uint32_t segments, uint32_t *index, size_t index_len, uint32_t party,
                                   const uint32_t *requests, size_t requests_len, uint32_t *answers,
                                   size_t answers_len);

typedef struct {
    const int32_t *words;
    size_t len;
} lf_segment_slice;

static inline lf_segment_slice lf_segment_look(uint32_t next, const int32_t *arena, size_t arena_len,
                                               const uint32_t *table, size_t table_len, uint32_t segments,
                                               const uint32_t *index, size_t index_len, const int32_t *placeholder,
                                               size_t placeholder_len, uint32_t party, uint32_t ticket,
                                               uint32_t address, uint32_t words)
{
    lf_segment_slice slice;
    if (lf_segment_find(next, arena, arena_len, table, table_len, segments, index, index_len, party, ticket, address,
                        words)
            .number == LF_OK) {
        slice.words = arena + address;
        slice.len = words;
    } else {
        slice.words = placeholder;
        slice.len = placeholder_len;
    }
    return slice;
}

/* ---- tables from before there were parties
 *
 * Copies an old table, LF_OLD_TABLE_WORDS(n), into a new one, LF_TABLE_WORDS(n) for the same n: its records become
 * party 1's. Head, arena and index stay as they are, and the pool goes on with the new table. Both tables may hold
 * anything; an old one that was in no order gives a new one that is in none. LF_OK, or LF_BAD_LENGTHS, and then nothing
 * is written. */
uint32_t lf_copy_table(const uint32_t *old, size_t old_len, uint32_t *new_table, size_t new_len);

/* ---- the text program, as the radio delivers its requests
 *
 * A session is one lent buffer of LF_STATE_BYTES bytes: where the program stands, the unfinished line, and the pool, of
 * form 1 and party 1. Start fills it; from then on hand it to each call as the one before left it, and bursts of
 * request bytes, cut anywhere. A burst is taken as far as its answers have room: LF_OK, all of it; LF_MORE_ROOM, the
 * first `taken` bytes, and the others are to be handed over again, with room for at least the next line's answer
 * (LF_ANSWER_BYTES is always enough). `written` bytes of the answer buffer are answers. The end call serves a last line
 * that has no line feed; without room it is LF_MORE_ROOM and changes nothing. LF_BAD_LENGTHS, if state_len is another;
 * LF_DAMAGED, if the buffer is no session's; then nothing changes. */
typedef struct {
    uint32_t number;
    size_t taken;
    size_t written;
} lf_burst;

uint32_t lf_session_start(uint8_t *state, size_t state_len);
lf_burst lf_session_burst(uint8_t *state, size_t state_len, const uint8_t *bytes, size_t bytes_len, uint8_t *answers,
                          size_t answers_len);
lf_burst lf_session_end(uint8_t *state, size_t state_len, uint8_t *answers, size_t answers_len);

#ifdef __cplusplus
}
#endif

#endif
