// Pools to measure on, brought into a state by calls of the proved library.
#ifndef POOLS_H
#define POOLS_H

#include <stdalign.h>
#include <stdbool.h>

#include "contestants.h"

// The tree pool in each of its forms, and the segment pool.
enum engine { TREE, TREE_2, TREE_3, SEGMENT, ENGINES };

enum state {
    EMPTY,      // formatted
    HALF,       // half of the slots and half of the words held, side by side from the low end
    FRAGMENTED, // every slot was filled, then every other record released: gaps between records
    CROWDED,    // fragmented, then each gap filled but for a unit: every slot live, and gaps
};

// POOL_WORDS is the most of forms 1 and 3 and of the segment pool, LARGE_WORDS that of form 2.
enum {
    POOL_WORDS = 16384,
    LARGE_WORDS = 1048576,
    LARGE_UNITS = LARGE_WORDS / 4,
    POOL_RECORDS = 256,
    RECORD_WORDS = 4,
    PARTY = 1, // all records are of one party
    POOL_SEGMENTS = 256,
    LIST_LENGTH = 512,
    LIST_UNITS = 512,
    LIST_MOST = 1024,
    LISTS = 48,
    MIX_LENGTH = 48,
    TRIM = 3, // kind of a call of a mix; lists have none such
    TEXT_WORDS = 8192, // the most of a session's pool
    BURST_LINES = 64,
    BURST_BYTES = BURST_LINES * 40,
    BURSTS_MOST = LISTS * (LIST_MOST / BURST_LINES),
};

// A list of requests that leaves the pool as it was, with the answers to them. For each release `granted_by` has the
// request that was granted its block.
typedef struct {
    size_t requests;
    uint32_t list[4 * LIST_MOST], expected[4 * LIST_MOST];
    uint32_t granted_by[LIST_MOST];
} traffic;

// Lines handed to a session together, their answers, and the room lent for those. Behind the last burst of several the
// pool is as before them, but for its next ticket.
typedef struct {
    size_t bytes, answered, room;
    bool last;
    uint8_t text[BURST_BYTES], answers[BURST_BYTES];
} burst;

typedef struct {
    enum engine engine;
    enum state state;
    const char *name; // of the state, or of what was made of it
    size_t words, records;
    uint32_t segments;

    lf_tree_head head; // the segment pool has no root
    uint32_t arena[LARGE_WORDS], table[RECORD_WORDS * POOL_RECORDS], index[3 * POOL_SEGMENTS];
    uint32_t copy[LARGE_WORDS]; // the arena once more, to compare it with

    lf_answer named;      // what find names, and the number that it answers
    uint32_t ask;         // the words that a pair asks for and gives back
    traffic lists[LISTS]; // several, run in turn, so that no predictor of branches learns one by heart
    size_t requests;      // of all lists
    traffic mix;          // grants, trims and releases, to be made by single calls
    uint32_t answers[4 * LIST_MOST];

    size_t burst_count, burst_lines;
    burst bursts[BURSTS_MOST];
    alignas(64) uint8_t session[LF_STATE_BYTES]; // the pool as the text program's, in a session's state
    uint8_t session_copy[LF_STATE_BYTES], said[BURST_BYTES];
} pool;

const char *engine_name(enum engine e);

// The number of a tree pool's form.
uint32_t form_of(enum engine e);

// The most words of an arena.
size_t most_words(enum engine e);

bool is_tree(const pool *p);

// Words to a unit of the ledger; words to a cell of the tree pool, and cells to a unit.
size_t unit_words(const pool *p);
size_t cell_words(const pool *p);
uint32_t unit_cells(const pool *p);

const char *state_name(enum state s);

// A number below n, the same ones in every run.
uint32_t random_below(uint32_t n);

size_t units_of(const pool *p);

// The words to ask for so that a block takes so many units, and the units that so many words take.
uint32_t words_for(const pool *p, size_t units);
size_t units_for(const pool *p, uint32_t words);

void make_pool(pool *p, enum engine e, size_t words, size_t records, uint32_t segments, enum state s);

// Takes the arena's copy once more, where its words were changed by hand.
void copy_arena(pool *p);

// Ends the program where a pool could not be made.
void fail(const pool *p, const char *what);

// Makes the lists, or the mix, which a pool has none of at first. There must be an empty slot.
void make_lists(pool *p);
void make_mix(pool *p);

// What a trim in a mix keeps of so many words.
uint32_t kept_of(uint32_t words);

// One call of a mix.
lf_answer call_of_mix(const contestant *c, pool *p, const uint32_t *q);

// One call on the pool, which keeps its own head up to date.
lf_answer ask_for(const contestant *c, pool *p, uint32_t words);
lf_answer give_back(const contestant *c, pool *p, lf_answer block);
lf_answer trim(const contestant *c, pool *p, lf_answer block, uint32_t keep);
lf_answer find_in(const contestant *c, const pool *p, lf_answer block);
lf_answer run_list(const contestant *c, pool *p, const uint32_t *requests, size_t n, uint32_t *answers);
lf_answer format_pool(const contestant *c, pool *p);

// Whether the contestant answers on this pool as the proved library did, and leaves it as it was.
bool agrees(const contestant *c, pool *p);

#endif
