/* A gateway between dryers and their radio, on each of the pools: commands are put into runs of words, and the radio
 * releases them in any order. One release comes in twice, the second time when a new command lies at its address; and
 * once more after a power loss, when the pool was formatted again. A heating firm's controller shares the pool with the
 * laundry. Then as large a pool as there can be, a table from before there were two firms, and a message that was taken
 * too long. */
#include "lingfurrow.h"

#include <inttypes.h>
#include <stdio.h>

#define RECORDS 4u
#define ARENA_WORDS 24u
#define SEGMENTS 4u
#define MOST_PLACES (1u + 2u + ARENA_WORDS / SEGMENTS) /* 2 is the logarithm of SEGMENTS */
#define BURST 4u

/* The parties: each firm's calls pass its own. */
#define LAUNDRY 1u
#define HEATING 2u

/* What the loop below needs of a pool. The answer of allocate, ticket, address and words, is what the radio gets with
 * the command and names in its release. */
typedef struct {
    const char *name;
    lf_answer (*format)(uint32_t first);
    uint32_t (*next_ticket)(void);
    lf_answer (*allocate)(uint32_t party, uint32_t words);
    lf_answer (*release)(uint32_t party, lf_answer named);
    lf_answer (*list)(uint32_t party, const uint32_t *requests, size_t requests_len, uint32_t *answers,
                      size_t answers_len);
    void (*write)(lf_answer run, uint32_t dryer);
    void (*show)(uint32_t party, lf_answer run);
} pool;

/* ---- on the tree pool, in each of its forms: the head that a call hands back replaces the old one */

typedef struct {
    uint32_t form;
    lf_tree_head head;
    uint32_t arena[ARENA_WORDS];
    uint32_t table[LF_TABLE_WORDS(RECORDS)];
} tree_pool;

static tree_pool tree_pools[] = { { .form = 1 }, { .form = 2 }, { .form = 3 } };
static tree_pool *tree; /* the one that calls are on */

static lf_answer tree_keep(lf_tree_outcome outcome)
{
    tree->head = outcome.head;
    return outcome.answer;
}

/* A format that is refused hands back no head to keep. */
static lf_answer tree_format(uint32_t first)
{
    lf_tree_outcome outcome =
        lf_tree_format(tree->form, tree->arena, ARENA_WORDS, tree->table, LF_TABLE_WORDS(RECORDS), first);
    return outcome.answer.number == LF_OK ? tree_keep(outcome) : outcome.answer;
}

static lf_answer tree_format_1(uint32_t first)
{
    tree = &tree_pools[0];
    return tree_format(first);
}

static lf_answer tree_format_2(uint32_t first)
{
    tree = &tree_pools[1];
    return tree_format(first);
}

static lf_answer tree_format_3(uint32_t first)
{
    tree = &tree_pools[2];
    return tree_format(first);
}

static uint32_t tree_next_ticket(void)
{
    return tree->head.next;
}

static lf_answer tree_allocate(uint32_t party, uint32_t words)
{
    return tree_keep(
        lf_tree_allocate(tree->head, tree->arena, ARENA_WORDS, tree->table, LF_TABLE_WORDS(RECORDS), party, words));
}

static lf_answer tree_release(uint32_t party, lf_answer named)
{
    return tree_keep(lf_tree_release(tree->head, tree->arena, ARENA_WORDS, tree->table, LF_TABLE_WORDS(RECORDS),
                                     party, named.ticket, named.address, named.words));
}

static lf_answer tree_list(uint32_t party, const uint32_t *requests, size_t requests_len, uint32_t *answers,
                           size_t answers_len)
{
    return tree_keep(lf_tree_list(tree->head, tree->arena, ARENA_WORDS, tree->table, LF_TABLE_WORDS(RECORDS),
                                  party, requests, requests_len, answers, answers_len));
}

/* A run that was granted is ours to write. */
static void tree_write(lf_answer run, uint32_t dryer)
{
    for (uint32_t i = 0; i < run.words; i++) {
        tree->arena[run.address + i] = 100 * dryer + i;
    }
}

/* Prints the run's words, or a 0 if the party does not hold it. */
static void tree_show(uint32_t party, lf_answer run)
{
    static const uint32_t nothing[1] = { 0 };
    lf_tree_slice slice = lf_tree_look(tree->head, tree->arena, ARENA_WORDS, tree->table, LF_TABLE_WORDS(RECORDS),
                                       nothing, 1, party, run.ticket, run.address, run.words);
    for (size_t i = 0; i < slice.len; i++) {
        printf(" %" PRIu32, slice.words[i]);
    }
}

/* ---- on the segment pool: the head is the next ticket */

static int32_t segment_arena[ARENA_WORDS];
static uint32_t segment_table[LF_TABLE_WORDS(RECORDS)];
static uint32_t segment_index[LF_INDEX_WORDS(SEGMENTS)];
static uint32_t segment_next;

static lf_answer segment_keep(lf_segment_outcome outcome)
{
    segment_next = outcome.next;
    return outcome.answer;
}

static lf_answer segment_format(uint32_t first)
{
    lf_segment_outcome outcome = lf_segment_format(segment_arena, ARENA_WORDS, segment_table, LF_TABLE_WORDS(RECORDS),
                                                   SEGMENTS, segment_index, LF_INDEX_WORDS(SEGMENTS), first);
    return outcome.answer.number == LF_OK ? segment_keep(outcome) : outcome.answer;
}

static uint32_t segment_next_ticket(void)
{
    return segment_next;
}

/* With the places that the search for room looked at. */
static lf_segment_allocation segment_allocate_counted(uint32_t party, uint32_t words)
{
    lf_segment_allocation done = lf_segment_allocate(segment_next, segment_arena, ARENA_WORDS, segment_table,
                                                     LF_TABLE_WORDS(RECORDS), SEGMENTS, segment_index,
                                                     LF_INDEX_WORDS(SEGMENTS), party, words);
    segment_next = done.next;
    return done;
}

static lf_answer segment_allocate(uint32_t party, uint32_t words)
{
    return segment_allocate_counted(party, words).answer;
}

static lf_answer segment_release(uint32_t party, lf_answer named)
{
    return segment_keep(lf_segment_release(segment_next, segment_arena, ARENA_WORDS, segment_table,
                                           LF_TABLE_WORDS(RECORDS), SEGMENTS, segment_index, LF_INDEX_WORDS(SEGMENTS),
                                           party, named.ticket, named.address, named.words));
}

static lf_answer segment_list(uint32_t party, const uint32_t *requests, size_t requests_len, uint32_t *answers,
                              size_t answers_len)
{
    return segment_keep(lf_segment_list(segment_next, segment_arena, ARENA_WORDS, segment_table,
                                        LF_TABLE_WORDS(RECORDS), SEGMENTS, segment_index, LF_INDEX_WORDS(SEGMENTS),
                                        party, requests, requests_len, answers, answers_len));
}

static void segment_write(lf_answer run, uint32_t dryer)
{
    for (uint32_t i = 0; i < run.words; i++) {
        segment_arena[run.address + i] = (int32_t)(100 * dryer + i);
    }
}

static void segment_show(uint32_t party, lf_answer run)
{
    static const int32_t nothing[1] = { 0 };
    lf_segment_slice slice = lf_segment_look(segment_next, segment_arena, ARENA_WORDS, segment_table,
                                             LF_TABLE_WORDS(RECORDS), SEGMENTS, segment_index,
                                             LF_INDEX_WORDS(SEGMENTS), nothing, 1, party, run.ticket, run.address,
                                             run.words);
    for (size_t i = 0; i < slice.len; i++) {
        printf(" %" PRId32, slice.words[i]);
    }
}

/* ---- the loop */

static const pool pools[] = {
    { "tree pool, form 1", tree_format_1, tree_next_ticket, tree_allocate, tree_release, tree_list, tree_write,
      tree_show },
    { "tree pool, form 2", tree_format_2, tree_next_ticket, tree_allocate, tree_release, tree_list, tree_write,
      tree_show },
    { "tree pool, form 3", tree_format_3, tree_next_ticket, tree_allocate, tree_release, tree_list, tree_write,
      tree_show },
    { "segment pool", segment_format, segment_next_ticket, segment_allocate, segment_release, segment_list,
      segment_write, segment_show },
};

/* What comes in: a command of some words for a dryer, or the radio's release of the command that came as the n-th. */
typedef struct {
    enum { COMMAND, RELEASE } kind;
    uint32_t dryer, words, nth;
} event;

static const event events[] = {
    { COMMAND, 4, 5, 0 },
    { COMMAND, 9, 4, 0 },
    { COMMAND, 2, 6, 0 },
    { RELEASE, 0, 0, 1 },
    { COMMAND, 9, 5, 0 }, /* lies where the first command lay */
    { RELEASE, 0, 0, 1 }, /* comes in again, over the spare antenna */
    { COMMAND, 7, 20, 0 },
    { RELEASE, 0, 0, 3 },
    { RELEASE, 0, 0, 2 },
};
#define EVENTS (sizeof events / sizeof events[0])

static const char *meaning(uint32_t number)
{
    switch (number) {
    case LF_OK: return "done";
    case LF_DAMAGED: return "the pool is damaged";
    case LF_BAD_SIZE: return "bad size";
    case LF_NO_RECORD: return "no record is left";
    case LF_NO_TICKET: return "no ticket is left";
    case LF_NO_ROOM: return "no room";
    case LF_UNKNOWN_TICKET: return "nothing is held under this ticket";
    case LF_MISMATCH: return "address or words are not this ticket's";
    case LF_BAD_LENGTHS: return "bad lengths";
    case LF_BAD_REQUEST: return "bad request";
    case LF_BAD_FORM: return "no such form";
    case LF_BAD_PARTY: return "no such party";
    default: return "unknown number";
    }
}

static void print_answer(lf_answer answer)
{
    if (answer.number == LF_OK) {
        printf("done, ticket %" PRIu32 " at %" PRIu32 ", words %" PRIu32 "\n", answer.ticket, answer.address,
               answer.words);
    } else {
        printf("refused, %" PRIu32 ": %s\n", answer.number, meaning(answer.number));
    }
}

static void print_look(const pool *on, uint32_t party, lf_answer run)
{
    printf("    look at ticket %" PRIu32 ":", run.ticket);
    on->show(party, run);
    printf("\n");
}

static lf_answer command(const pool *on, uint32_t dryer, uint32_t words)
{
    lf_answer run = on->allocate(LAUNDRY, words);
    printf("  command for dryer %" PRIu32 ", words %" PRIu32 ": ", dryer, words);
    print_answer(run);
    on->write(run, dryer); /* a refused run has no words */
    return run;
}

/* A release as the radio names it. Refused, it leaves the command that was stored last as it is. */
static void radio_release(const pool *on, lf_answer named, lf_answer last)
{
    lf_answer answer = on->release(LAUNDRY, named);
    printf("  release of ticket %" PRIu32 " at %" PRIu32 ", words %" PRIu32 ": ", named.ticket, named.address,
           named.words);
    print_answer(answer);
    if (answer.number != LF_OK) {
        print_look(on, LAUNDRY, named);
        print_look(on, LAUNDRY, last);
    }
}

/* Four requests handed over as one list: two new commands, the last command's release and a replay. */
static void burst(const pool *on, lf_answer first, lf_answer last)
{
    const uint32_t requests[LF_LIST_WORDS(BURST)] = {
        LF_REQUEST_ALLOCATE, 3, 0, 0,
        LF_REQUEST_RELEASE, last.ticket, last.address, last.words,
        LF_REQUEST_ALLOCATE, 8, 0, 0,
        LF_REQUEST_RELEASE, first.ticket, first.address, first.words,
    };
    uint32_t answers[LF_LIST_WORDS(BURST)];
    lf_answer whole = on->list(LAUNDRY, requests, LF_LIST_WORDS(BURST), answers, LF_LIST_WORDS(BURST));
    if (whole.number != LF_OK) {
        print_answer(whole);
        return;
    }
    printf("  list of %u requests\n", BURST);
    for (size_t i = 0; i < BURST; i++) {
        const uint32_t *r = requests + 4 * i;
        const uint32_t *a = answers + 4 * i;
        const lf_answer answer = { a[0], a[1], a[2], a[3] };
        printf("    %" PRIu32 " %" PRIu32 " %" PRIu32 " %" PRIu32 ": ", r[0], r[1], r[2], r[3]);
        print_answer(answer);
    }
}

/* What comes in up to the power loss. Hands back the run that was granted first. */
static lf_answer serve(const pool *on)
{
    lf_answer runs[EVENTS];
    lf_answer last = { 0, 0, 0, 0 };
    size_t commands = 0;
    for (size_t i = 0; i < EVENTS; i++) {
        if (events[i].kind == COMMAND) {
            runs[commands] = command(on, events[i].dryer, events[i].words);
            if (runs[commands].number == LF_OK) {
                last = runs[commands];
            }
            commands++;
        } else {
            radio_release(on, runs[events[i].nth - 1], last);
        }
    }
    burst(on, runs[0], last);
    return runs[0];
}

/* The pool is formatted again, with the next ticket as firmware stored it, so that no earlier ticket is given again:
 * the release that fitted before comes in once more and is refused, though address and words fit the new command. */
static lf_answer restart(const pool *on, uint32_t stored, lf_answer earlier)
{
    lf_answer formatted = on->format(stored);
    if (formatted.number == LF_OK) {
        printf("  restart, first ticket %" PRIu32 "\n", stored);
        lf_answer run = command(on, 4, earlier.words);
        radio_release(on, earlier, run);
    }
    return formatted;
}

/* The heating firm takes a run of its own. The laundry is told of its ticket what it would be told of a dead one,
 * though it names the run rightly; and number 256 is no firm's. */
static void two_firms(const pool *on)
{
    lf_answer heat = on->allocate(HEATING, 2);
    printf("  order of the heating firm, words 2: ");
    print_answer(heat);
    on->write(heat, 21);
    printf("  the laundry's release of it: ");
    print_answer(on->release(LAUNDRY, heat));
    print_look(on, LAUNDRY, heat);
    print_look(on, HEATING, heat);
    printf("  a release of it by 256: ");
    print_answer(on->release(256, heat));
    printf("  the heating firm's release of it: ");
    print_answer(on->release(HEATING, heat));
}

static lf_answer run_on(const pool *on)
{
    lf_answer formatted = on->format(1);
    if (formatted.number != LF_OK) {
        return formatted;
    }
    printf("%s, words %u, records %u\n", on->name, ARENA_WORDS, RECORDS);
    lf_answer earlier = serve(on);
    lf_answer restarted = restart(on, on->next_ticket(), earlier);
    if (restarted.number == LF_OK) {
        two_firms(on);
    }
    return restarted;
}

/* The segment pool says how far each search for room went. */
static void count_places(void)
{
    for (uint32_t words = 2; words < 4; words++) {
        printf("  search for room, words %" PRIu32 ": places %" PRIu32 ", at most %u\n", words,
               segment_allocate_counted(LAUNDRY, words).places, MOST_PLACES);
    }
}

/* A laundry with four hundred dryers: form 2 has room for it, form 1 has not. */
static void large_pool(void)
{
    static uint32_t arena[LF_FORM_2_ARENA_WORDS_MAX];
    static uint32_t table[LF_TABLE_WORDS(LF_RECORDS_MAX)];
    lf_tree_outcome now = { { 0, 0, 0 }, { 0, 0, 0, 0 } };
    for (uint32_t form = 0; form < 3; form++) {
        now = lf_tree_format(form, arena, LF_FORM_2_ARENA_WORDS_MAX, table, LF_TABLE_WORDS(LF_RECORDS_MAX), 1);
        printf("form %" PRIu32 ", words %u, records %u: %s\n", form, LF_FORM_2_ARENA_WORDS_MAX, LF_RECORDS_MAX,
               meaning(now.answer.number));
    }
    for (uint32_t words = 400000; words < 400003; words++) {
        now = lf_tree_allocate(now.head, arena, LF_FORM_2_ARENA_WORDS_MAX, table, LF_TABLE_WORDS(LF_RECORDS_MAX),
                               LAUNDRY, words);
        printf("  words %" PRIu32 ": ", words);
        print_answer(now.answer);
    }
}

/* A pool of an earlier firmware, its table of three words to a record: ticket 1 at 0 and ticket 2 at 6, both of the
 * laundry. With the table copied, the pool goes on. */
static void old_table(void)
{
    uint32_t arena[ARENA_WORDS] = { 0 };
    const uint32_t old[LF_OLD_TABLE_WORDS(RECORDS)] = { 1, 0, 5, 2, 6, 4 };
    uint32_t table[LF_TABLE_WORDS(RECORDS)];
    lf_tree_head head = { 6, 3, 1 }; /* one free block, of seven cells from cell 5 on */
    arena[10] = 7;
    uint32_t number = lf_copy_table(old, LF_OLD_TABLE_WORDS(RECORDS), table, LF_TABLE_WORDS(RECORDS));
    printf("table of %u old records: %s\n", RECORDS, meaning(number));
    for (uint32_t party = LAUNDRY; party <= HEATING; party++) {
        printf("  find of ticket 2 by party %" PRIu32 ": ", party);
        print_answer(lf_tree_find(head, arena, ARENA_WORDS, table, LF_TABLE_WORDS(RECORDS), party, 2, 6, 4));
    }
}

#define LONG_WORDS 128u

static void print_step(const char *step, lf_answer answer)
{
    printf("  %s: ", step);
    print_answer(answer);
}

/* A message is taken at 64 words before its length is known, and cut to the 10 that it has. What lies behind them is
 * free for the next one. From then on the run is named with 10 words: the release with 64 that is still under way is
 * refused, and the message stays. */
static void cut_in_tree(void)
{
    uint32_t arena[LONG_WORDS], table[LF_TABLE_WORDS(RECORDS)];
    const size_t table_len = LF_TABLE_WORDS(RECORDS);
    lf_tree_outcome now = lf_tree_format(1, arena, LONG_WORDS, table, table_len, 1);
    printf("tree pool, form 1, words %u, records %u\n", LONG_WORDS, RECORDS);
    now = lf_tree_allocate(now.head, arena, LONG_WORDS, table, table_len, LAUNDRY, 64);
    lf_answer taken = now.answer;
    print_step("message, words 64", taken);
    now = lf_tree_trim(now.head, arena, LONG_WORDS, table, table_len, LAUNDRY, taken.ticket, taken.address, 64, 10);
    lf_answer kept = now.answer;
    print_step("cut to 10", kept);
    now = lf_tree_allocate(now.head, arena, LONG_WORDS, table, table_len, LAUNDRY, 100);
    print_step("message, words 100", now.answer);
    now = lf_tree_release(now.head, arena, LONG_WORDS, table, table_len, LAUNDRY, taken.ticket, taken.address, 64);
    print_step("release with 64", now.answer);
    now = lf_tree_release(now.head, arena, LONG_WORDS, table, table_len, LAUNDRY, kept.ticket, kept.address, 10);
    print_step("release with 10", now.answer);
}

/* The same on the segment pool. */
static void cut_in_segments(void)
{
    int32_t v[LONG_WORDS];
    uint32_t table[LF_TABLE_WORDS(RECORDS)], index[LF_INDEX_WORDS(SEGMENTS)];
    const size_t table_len = LF_TABLE_WORDS(RECORDS), index_len = LF_INDEX_WORDS(SEGMENTS);
    uint32_t next = lf_segment_format(v, LONG_WORDS, table, table_len, SEGMENTS, index, index_len, 1).next;
    printf("segment pool, words %u, records %u\n", LONG_WORDS, RECORDS);
    lf_segment_allocation taken =
        lf_segment_allocate(next, v, LONG_WORDS, table, table_len, SEGMENTS, index, index_len, LAUNDRY, 64);
    const uint32_t ticket = taken.answer.ticket, address = taken.answer.address;
    print_step("message, words 64", taken.answer);
    lf_segment_outcome kept = lf_segment_trim(taken.next, v, LONG_WORDS, table, table_len, SEGMENTS, index, index_len,
                                              LAUNDRY, ticket, address, 64, 10);
    print_step("cut to 10", kept.answer);
    lf_segment_allocation more =
        lf_segment_allocate(kept.next, v, LONG_WORDS, table, table_len, SEGMENTS, index, index_len, LAUNDRY, 100);
    print_step("message, words 100", more.answer);
    lf_segment_outcome late = lf_segment_release(more.next, v, LONG_WORDS, table, table_len, SEGMENTS, index,
                                                 index_len, LAUNDRY, ticket, address, 64);
    print_step("release with 64", late.answer);
    late = lf_segment_release(late.next, v, LONG_WORDS, table, table_len, SEGMENTS, index, index_len, LAUNDRY, ticket,
                              address, 10);
    print_step("release with 10", late.answer);
}

int main(void)
{
    for (size_t i = 0; i < sizeof pools / sizeof pools[0]; i++) {
        lf_answer formatted = run_on(&pools[i]);
        if (formatted.number != LF_OK) {
            print_answer(formatted);
            return 1;
        }
    }
    count_places();
    large_pool();
    old_table();
    cut_in_tree();
    cut_in_segments();
    return 0;
}
