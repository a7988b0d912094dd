#include "damage.h"

#include <string.h>

#include "shapes.h"

// ---- where to strike

// The last free run that has words behind its header.
static run last_run(const pool *p)
{
    run runs[POOL_RECORDS + 1];
    size_t count = free_runs(p, runs);
    while (count > 0 && runs[count - 1].units < 2)
        count--;
    if (count == 0)
        fail(p, "no free run has a word to overwrite");
    return runs[count - 1];
}

static void set_left(pool *p, size_t link, size_t to)
{
    set_links(p, link, to, right_of(p, link));
}

static void set_right(pool *p, size_t link, size_t to)
{
    set_links(p, link, left_of(p, link), to);
}

// The node that a walk in order comes to last.
static size_t last_node(const pool *p)
{
    size_t at = p->head.root;
    while (right_of(p, at) != 0)
        at = right_of(p, at);
    return at;
}

// The last one that has no left part.
static size_t last_without_left(const pool *p)
{
    size_t at = last_node(p);
    while (left_of(p, at) != 0)
        for (at = left_of(p, at); right_of(p, at) != 0;)
            at = right_of(p, at);
    return at;
}

// ---- both engines

static void set_last_free_word(pool *p)
{
    run r = last_run(p);
    p->arena[unit_words(p) * (r.first + r.units) - 1] = 1;
}

// A record inside another, in an empty slot. Blocks still lie side by side; only a sum or a map of all units tells.
static void nest_record(pool *p)
{
    size_t slot = 0;
    while (p->table[RECORD_WORDS * slot] != 0)
        slot++;
    uint32_t address = p->named.address + (uint32_t)unit_words(p);
    if (p->engine == SEGMENT)
        p->arena[address - 1] = -units_for(p, 1);
    memcpy(p->table + RECORD_WORDS * slot, (const uint32_t[RECORD_WORDS]){p->head.next++, address, 1, PARTY},
           RECORD_WORDS * sizeof address);
}

// Each record reaches from a unit of its own to the end, and fits by itself. A map that notes long ones in several
// places is written all over.
static void reach_the_end(pool *p)
{
    for (uint32_t i = 0; i < p->records; i++) {
        uint32_t units = (uint32_t)units_of(p) - i, address = is_tree(p) ? (uint32_t)unit_words(p) * i : i + 1;
        const uint32_t row[RECORD_WORDS] = {p->head.next++, address, words_for(p, units), PARTY};
        memcpy(p->table + RECORD_WORDS * i, row, sizeof row);
        if (p->engine == SEGMENT)
            p->arena[i] = -units;
    }
}

// Tickets that lie so far apart.
static void spread_tickets(pool *p, uint32_t step)
{
    size_t named = 0;
    while (p->table[RECORD_WORDS * named] != p->named.ticket)
        named++;
    for (size_t i = 0; i < p->records; i++)
        if (p->table[RECORD_WORDS * i] != 0)
            p->table[RECORD_WORDS * i] = 1 + step * (uint32_t)i;
    p->named.ticket = p->table[RECORD_WORDS * named];
    p->head.next = 1 + step * (uint32_t)p->records;
}

// The check keeps a mark for each of 2048 residues, of few slots 128, and compares tickets that share one.
static void share_residue(pool *p)
{
    spread_tickets(p, 2048);
}

// There are 128 marks, by the ticket's next bits.
static void share_mark(pool *p)
{
    spread_tickets(p, 2048 * 128);
}

static void share_residue_late(pool *p)
{
    share_residue(p);
    set_last_free_word(p);
}

static void lay_equal_gaps(pool *p)
{
    strip s = equal_gaps(p);
    lay(p, &s);
}

static void lay_rising_gaps(pool *p)
{
    strip s = rising_gaps(p);
    lay(p, &s);
}

// Where a map has entries that are searched from a place on, all of them have the same.
static void cram_low(pool *p)
{
    strip s = {.held_count = p->records};
    for (size_t i = 0; i < p->records; i++) {
        s.free[i] = 1;
        s.held[i] = least_held(p);
    }
    s.free[p->records] = (uint32_t)(units_of(p) - p->records * (1 + least_held(p)));
    lay(p, &s);
}

// ---- the segment pool: numbers that pass for control words

// Each word leads just to the arena's end. Whoever takes words for sizes, one after another, and tests as many units
// each time, tests half of the words' square.
static void lay_ramp(pool *p, size_t from, size_t to)
{
    for (size_t i = from; i < to; i++)
        p->arena[i] = (uint32_t)(p->words - i);
}

// One run holds all but a word, and the ramp; its control word is lost.
static void ramp(pool *p)
{
    ask_for(&contestants[0], p, (uint32_t)p->words - 2);
    lay_ramp(p, 1, p->words);
    p->arena[0] = 0;
}

// Two runs of 8,000 words. The second holds the ramp, and the first's holder writes a word too far.
static void overrun(pool *p)
{
    ask_for(&contestants[0], p, 8000);
    lf_answer second = ask_for(&contestants[0], p, 8000);
    lay_ramp(p, second.address - 1, second.address + second.words);
}

static void set_index_word_0(pool *p)
{
    p->index[0] = 1;
}

// ---- the tree pool: links and lengths

static void link_to_held(pool *p)
{
    set_right(p, last_node(p), p->named.address / cell_words(p) + 1);
}

static void be_own_son(pool *p)
{
    size_t at = last_without_left(p);
    set_left(p, at, at);
}

static void lead_back_to_root(pool *p)
{
    set_right(p, last_node(p), p->head.root);
}

static void lengthen_last_of_right_chain(pool *p)
{
    lay_equal_gaps(p);
    node_at(p, last_node(p))[0]++;
}

static void lengthen_first_of_left_chain(pool *p)
{
    lay_rising_gaps(p);
    p->arena[0]++;
}

// A right chain of short gaps; above it, in the last held block, false nodes that each have the one before to their
// left, as many as fit. Whoever tests a node only after its left part walks all of them first.
static void add_false_fathers(pool *p)
{
    strip s = {.held_count = p->records};
    for (size_t i = 0; i < p->records; i++)
        s.free[i] = s.held[i] = 1;
    uint32_t unit = (uint32_t)(2 * p->records - 1), units = (uint32_t)units_of(p);
    s.held[p->records - 1] = units - unit;
    lay(p, &s);
    uint32_t cell = unit_cells(p) * unit, cells = unit_cells(p) * units;
    for (uint32_t length = unit_cells(p) + 1; cell + length <= cells; length++) {
        node_at(p, cell + 1)[0] = length;
        set_links(p, cell + 1, p->head.root, 0);
        p->head.root = cell + 1;
        cell += length + 1;
    }
}

// A left chain of false nodes below a node of that length in cells, each shorter by one, with a cell between them.
static void hang_false_sons(pool *p, size_t at, uint32_t length)
{
    while (--length > 0) {
        size_t son = at - length - 1;
        set_left(p, at, son);
        node_at(p, son)[0] = length;
        set_links(p, son, 0, 0);
        at = son;
    }
}

// Below a node of that length in units.
static uint32_t units_of_sons(const pool *p, uint32_t length)
{
    uint32_t cells = unit_cells(p) * length;
    return (cells * (cells + 1) / 2 + unit_cells(p) - 1) / unit_cells(p);
}

// How many gaps of that length go into the pool, with a held unit between them, and false sons before the last.
static uint32_t gaps_above_sons(const pool *p, uint32_t length)
{
    uint32_t gaps = ((uint32_t)units_of(p) - units_of_sons(p, length)) / (length + 1);
    return gaps <= p->records ? gaps : (uint32_t)p->records + 1;
}

// A right chain, and in the held block before its last node false ones, as a left chain below that node. Chosen so
// that both together are as deep as can be.
static void add_false_sons(pool *p)
{
    uint32_t units = (uint32_t)units_of(p), cells = unit_cells(p), best = 2;
    for (uint32_t length = 2; units_of_sons(p, length) + 2 * (length + 1) <= units; length++)
        if (gaps_above_sons(p, length) + cells * length > gaps_above_sons(p, best) + cells * best)
            best = length;
    uint32_t gaps = gaps_above_sons(p, best);
    strip s = {.held_count = gaps - 1};
    for (size_t i = 0; i < gaps; i++)
        s.free[i] = best;
    for (size_t i = 0; i + 2 < gaps; i++)
        s.held[i] = 1;
    s.held[gaps - 2] = units - gaps * best - (gaps - 2);
    lay(p, &s);
    hang_false_sons(p, last_node(p), cells * best);
}

// ---- all of them

const oddity oddities[] = {
    {"ramp", SEGMENTS, EMPTY, ramp, AS_WORDS_GROW, false},
    {"overrun", SEGMENTS, EMPTY, overrun, AT_MOST_WORDS, false},
    {"last free word set, empty", BOTH, EMPTY, set_last_free_word, EVERYWHERE, false},
    {"last free word set, fragmented", BOTH, FRAGMENTED, set_last_free_word, EVERYWHERE, false},
    {"record inside another", BOTH, FRAGMENTED, nest_record, EVERYWHERE, false},
    {"wild link", TREES, FRAGMENTED, link_to_held, EVERYWHERE, false},
    {"cycle, node its own left son", TREES, FRAGMENTED, be_own_son, EVERYWHERE, false},
    {"cycle, last node to the root", TREES, FRAGMENTED, lead_back_to_root, EVERYWHERE, false},
    {"right chain, last too long", TREES, EMPTY, lengthen_last_of_right_chain, AT_MOST_RECORDS, false},
    {"left chain, first too long", TREES, EMPTY, lengthen_first_of_left_chain, AT_MOST_RECORDS, false},
    {"right chain, false fathers", TREES, EMPTY, add_false_fathers, AT_MOST_RECORDS, false},
    {"right chain, false sons", TREES, EMPTY, add_false_sons, AT_MOST_RECORDS, false},
    {"index word 0 set", SEGMENTS, CROWDED, set_index_word_0, AT_MOST_RECORDS, false},
    {"every record up to the end", BOTH, EMPTY, reach_the_end, AT_MOST_RECORDS, false},
    {"one residue, last free word set", BOTH, CROWDED, share_residue_late, AT_MOST_RECORDS, false},
    {"tickets of one residue", BOTH, CROWDED, share_residue, AT_MOST_RECORDS, true},
    {"tickets of one residue and mark", BOTH, CROWDED, share_mark, AT_MOST_RECORDS, true},
    {"all crammed at the low end", BOTH, EMPTY, cram_low, AT_MOST_WORDS, true},
    {"equal gaps (right chain)", BOTH, EMPTY, lay_equal_gaps, AT_MOST_RECORDS, true},
    {"rising gaps (left chain)", BOTH, EMPTY, lay_rising_gaps, AT_MOST_RECORDS, true},
};
const size_t oddity_count = sizeof oddities / sizeof oddities[0];

bool has_engine(const oddity *o, enum engine e)
{
    return o->engines == BOTH || o->engines == (e == SEGMENT ? SEGMENTS : TREES);
}

void make_odd(pool *p, enum engine e, size_t words, size_t records, uint32_t segments, const oddity *o)
{
    make_pool(p, e, words, records, segments, o->from);
    p->name = o->name;
    o->change(p);
    copy_arena(p);
    if (!o->sound)
        p->named.number = 1;
}
