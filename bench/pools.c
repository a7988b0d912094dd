#include "pools.h"

#include <stdio.h>
#include <stdlib.h>
#include <string.h>

const char *engine_name(enum engine e)
{
    static const char *const names[] = {"tree", "tree 2", "tree 3", "segment"};
    return names[e];
}

uint32_t form_of(enum engine e)
{
    return (uint32_t)e + 1;
}

size_t most_words(enum engine e)
{
    return e == TREE_2 ? LARGE_WORDS : POOL_WORDS;
}

bool is_tree(const pool *p)
{
    return p->engine != SEGMENT;
}

size_t unit_words(const pool *p)
{
    static const size_t words[] = {2, 4, 8, 1};
    return words[p->engine];
}

size_t cell_words(const pool *p)
{
    return p->engine == TREE_2 ? 4 : 2;
}

uint32_t unit_cells(const pool *p)
{
    return (uint32_t)(unit_words(p) / cell_words(p));
}

const char *state_name(enum state s)
{
    static const char *const names[] = {"empty", "half full", "fragmented", "crowded"};
    return names[s];
}

// ---- one call

static size_t table_words(const pool *p)
{
    return RECORD_WORDS * p->records;
}

lf_answer ask_for(const contestant *c, pool *p, uint32_t words)
{
    if (is_tree(p)) {
        lf_tree_outcome o = c->tree_allocate(p->head, p->arena, p->words, p->table, table_words(p), PARTY, words);
        p->head = o.head;
        return o.answer;
    }
    lf_segment_allocation o =
        c->segment_allocate(p->head.next, (int32_t *)p->arena, p->words, p->table, table_words(p), p->segments,
                            p->index, 3 * p->segments, PARTY, words);
    p->head.next = o.next;
    return o.answer;
}

lf_answer give_back(const contestant *c, pool *p, lf_answer b)
{
    if (is_tree(p)) {
        lf_tree_outcome o = c->tree_release(p->head, p->arena, p->words, p->table, table_words(p), PARTY, b.ticket,
                                            b.address, b.words);
        p->head = o.head;
        return o.answer;
    }
    lf_segment_outcome o =
        c->segment_release(p->head.next, (int32_t *)p->arena, p->words, p->table, table_words(p), p->segments,
                           p->index, 3 * p->segments, PARTY, b.ticket, b.address, b.words);
    p->head.next = o.next;
    return o.answer;
}

lf_answer trim(const contestant *c, pool *p, lf_answer b, uint32_t keep)
{
    if (is_tree(p)) {
        lf_tree_outcome o = c->tree_trim(p->head, p->arena, p->words, p->table, table_words(p), PARTY, b.ticket,
                                         b.address, b.words, keep);
        p->head = o.head;
        return o.answer;
    }
    lf_segment_outcome o =
        c->segment_trim(p->head.next, (int32_t *)p->arena, p->words, p->table, table_words(p), p->segments, p->index,
                        3 * p->segments, PARTY, b.ticket, b.address, b.words, keep);
    p->head.next = o.next;
    return o.answer;
}

lf_answer find_in(const contestant *c, const pool *p, lf_answer b)
{
    if (is_tree(p))
        return c->tree_find(p->head, p->arena, p->words, p->table, table_words(p), PARTY, b.ticket, b.address,
                            b.words);
    return c->segment_find(p->head.next, (const int32_t *)p->arena, p->words, p->table, table_words(p), p->segments,
                           p->index, 3 * p->segments, PARTY, b.ticket, b.address, b.words);
}

lf_answer run_list(const contestant *c, pool *p, const uint32_t *requests, size_t n, uint32_t *answers)
{
    if (is_tree(p)) {
        lf_tree_outcome o = c->tree_list(p->head, p->arena, p->words, p->table, table_words(p), PARTY, requests,
                                         4 * n, answers, 4 * n);
        p->head = o.head;
        return o.answer;
    }
    lf_segment_outcome o =
        c->segment_list(p->head.next, (int32_t *)p->arena, p->words, p->table, table_words(p), p->segments, p->index,
                        3 * p->segments, PARTY, requests, 4 * n, answers, 4 * n);
    p->head.next = o.next;
    return o.answer;
}

lf_answer format_pool(const contestant *c, pool *p)
{
    if (is_tree(p)) {
        lf_tree_outcome o = c->tree_format(form_of(p->engine), p->arena, p->words, p->table, table_words(p), 1);
        p->head = o.head;
        return o.answer;
    }
    lf_segment_outcome o = c->segment_format((int32_t *)p->arena, p->words, p->table, table_words(p), p->segments,
                                             p->index, 3 * p->segments, 1);
    p->head.next = o.next;
    return o.answer;
}

// ---- states

static uint64_t seed;

uint32_t random_below(uint32_t n)
{
    seed ^= seed << 13;
    seed ^= seed >> 7;
    seed ^= seed << 17;
    return (uint32_t)(seed >> 20) % n;
}

void fail(const pool *p, const char *what)
{
    fprintf(stderr, "bench: %s pool of %zu words and %zu records, %s: %s\n", engine_name(p->engine), p->words,
            p->records, p->name, what);
    exit(1);
}

size_t units_of(const pool *p)
{
    return p->words / unit_words(p);
}

uint32_t words_for(const pool *p, size_t units)
{
    if (is_tree(p))
        return (uint32_t)(unit_words(p) * units);
    return units < 2 ? 1 : (uint32_t)(units - 1);
}

size_t units_for(const pool *p, uint32_t words)
{
    return is_tree(p) ? (words + unit_words(p) - 1) / unit_words(p) : words + 1;
}

// Asks, and as the holder writes into every word. Many tickets were given and spent before, so those that live
// together lie apart.
static lf_answer take(pool *p, uint32_t words)
{
    p->head.next += random_below(1000);
    lf_answer a = ask_for(&contestants[0], p, words);
    if (a.number != 0)
        fail(p, "a request was refused while the pool was made");
    for (uint32_t i = 0; i < a.words; i++)
        p->arena[a.address + i] = random_below(0xffffffff) | 1;
    return a;
}

static void drop(pool *p, lf_answer block)
{
    if (give_back(&contestants[0], p, block).number != 0)
        fail(p, "a release was refused while the pool was made");
}

static void fill_half(pool *p, lf_answer *blocks)
{
    for (size_t i = 0; i < p->records / 2; i++)
        blocks[i] = take(p, words_for(p, units_of(p) / p->records));
}

// Blocks of half an even share up to a whole one; then every other one is released.
static void fragment(pool *p, lf_answer *blocks)
{
    size_t share = units_of(p) / p->records;
    for (size_t i = 0; i < p->records; i++)
        blocks[i] = take(p, words_for(p, share - random_below((uint32_t)(share / 2 + 1))));
    for (size_t i = 0; i < p->records; i += 2)
        drop(p, blocks[i]);
}

static void crowd(pool *p, lf_answer *blocks)
{
    for (size_t i = 0; i < p->records; i += 2) {
        size_t gap = units_for(p, blocks[i].words);
        size_t least = is_tree(p) ? 1 : 2;
        blocks[i] = take(p, words_for(p, gap > least ? gap - 1 : gap));
    }
}

// ---- lists

// One request, which is added to the list where it is granted.
static bool add_request(pool *p, traffic *l, const uint32_t request[4])
{
    uint32_t answer[4];
    if (run_list(&contestants[0], p, request, 1, answer).number != 0)
        fail(p, "a list was refused while it was made");
    if (answer[0] != 0)
        return false;
    memcpy(l->list + 4 * l->requests, request, sizeof answer);
    memcpy(l->expected + 4 * l->requests, answer, sizeof answer);
    l->requests++;
    return true;
}

// Of a share of the pool at most, and of no more than a share of the smaller pools, since a release wipes its words.
static bool add_ask(pool *p, traffic *l)
{
    size_t share = units_of(p) / p->records;
    share = share < LIST_UNITS ? share : LIST_UNITS;
    uint32_t words = words_for(p, 1 + random_below((uint32_t)share));
    return add_request(p, l, (const uint32_t[4]){1, words, 0, 0});
}

// Releases one of the blocks that the list holds, which stand in `open` as numbers of requests.
static void add_give(pool *p, traffic *l, size_t *open, size_t *count)
{
    size_t k = random_below((uint32_t)*count);
    const uint32_t *a = l->expected + 4 * open[k];
    l->granted_by[l->requests] = (uint32_t)open[k];
    if (!add_request(p, l, (const uint32_t[4]){2, a[1], a[2], a[3]}))
        fail(p, "a release was refused while the list was made");
    open[k] = open[--*count];
}

// About half of the empty slots are kept filled: requests and releases in turn by lot, then all is given back.
static void make_list(pool *p, traffic *l)
{
    size_t open[LIST_MOST], count = 0;
    size_t live = p->state == EMPTY ? 0 : p->records / 2;
    uint32_t most = (uint32_t)(p->records - live);
    lf_tree_head head = p->head;
    l->requests = 0;
    while (l->requests + count < LIST_LENGTH) {
        bool ask = count == 0 || (count < most && random_below(most) >= count);
        if (ask && add_ask(p, l))
            open[count++] = l->requests - 1;
        else if (count > 0)
            add_give(p, l, open, &count);
    }
    while (count > 0)
        add_give(p, l, open, &count);
    p->head = head;
}

void make_lists(pool *p)
{
    for (size_t i = 0; i < LISTS; i++) {
        make_list(p, &p->lists[i]);
        p->requests += p->lists[i].requests;
    }
}

// ---- a mix

uint32_t kept_of(uint32_t words)
{
    return (words + 1) / 2;
}

lf_answer call_of_mix(const contestant *c, pool *p, const uint32_t *q)
{
    lf_answer named = {0, q[1], q[2], q[3]};
    if (q[0] == 1)
        return ask_for(c, p, q[1]);
    return q[0] == TRIM ? trim(c, p, named, kept_of(named.words)) : give_back(c, p, named);
}

// One call more, where it is accepted.
static bool add_call(pool *p, const uint32_t q[4])
{
    traffic *l = &p->mix;
    lf_answer a = call_of_mix(&contestants[0], p, q);
    if (a.number != 0)
        return false;
    memcpy(l->list + 4 * l->requests, q, 4 * sizeof q[0]);
    memcpy(l->expected + 4 * l->requests++, &a, sizeof a);
    return true;
}

// Trims or releases one of the blocks that the mix holds; those stand in `open`.
static void add_call_on(pool *p, uint32_t kind, lf_answer *open, size_t *count)
{
    size_t k = random_below((uint32_t)*count);
    if (!add_call(p, (const uint32_t[4]){kind, open[k].ticket, open[k].address, open[k].words}))
        fail(p, "a trim or release was refused while the mix was made");
    if (kind == TRIM)
        open[k].words = kept_of(open[k].words);
    else
        open[k] = open[--*count];
}

// A grant in a third of the calls, a trim in another, then a release of all.
void make_mix(pool *p)
{
    lf_answer open[MIX_LENGTH];
    size_t count = 0;
    lf_tree_head head = p->head;
    p->mix.requests = 0;
    while (p->mix.requests + count < MIX_LENGTH) {
        size_t share = units_of(p) / p->records;
        uint32_t lot = random_below(3), words = words_for(p, 1 + random_below((uint32_t)share));
        if ((lot == 0 || count == 0) && add_call(p, (const uint32_t[4]){1, words, 0, 0}))
            memcpy(&open[count++], p->mix.expected + 4 * (p->mix.requests - 1), sizeof open[0]);
        else if (count > 0)
            add_call_on(p, lot == 1 ? TRIM : 2, open, &count);
    }
    while (count > 0)
        add_call_on(p, 2, open, &count);
    p->head = head;
}

// ---- the pool

void make_pool(pool *p, enum engine e, size_t words, size_t records, uint32_t segments, enum state s)
{
    static lf_answer blocks[POOL_RECORDS];
    memset(p->arena, 0xa5, words * sizeof p->arena[0]);
    memset(p->table, 0xa5, sizeof p->table);
    memset(p->index, 0xa5, sizeof p->index);
    p->engine = e;
    p->state = s;
    p->name = state_name(s);
    p->words = words;
    p->records = records;
    p->segments = segments;
    p->head = (lf_tree_head){0, 0, 0};
    seed = 88172645463325252u;
    if (format_pool(&contestants[0], p).number != 0)
        fail(p, "format was refused");
    if (s == HALF)
        fill_half(p, blocks);
    if (s == FRAGMENTED || s == CROWDED)
        fragment(p, blocks);
    if (s == CROWDED)
        crowd(p, blocks);
    size_t middle = s == HALF ? records / 4 : records / 2 | (records > 1);
    p->named = s == EMPTY ? (lf_answer){6, 1, 0, 1} : blocks[middle];
    // among gaps, the length of one in the middle; a lower one may fit too
    p->ask = s == FRAGMENTED ? blocks[records / 4 * 2].words : words_for(p, units_of(p) / records);
    p->requests = 0;
    p->mix.requests = 0;
    p->burst_count = 0;
    copy_arena(p);
}

void copy_arena(pool *p)
{
    memcpy(p->copy, p->arena, p->words * sizeof p->arena[0]);
}

static bool lists_agree(const contestant *c, pool *p)
{
    lf_tree_head head = p->head;
    bool ok = true;
    for (size_t i = 0; ok && p->requests > 0 && i < LISTS; i++) {
        const traffic *l = &p->lists[i];
        ok = run_list(c, p, l->list, l->requests, p->answers).number == 0 && p->head.root == head.root &&
             memcmp(p->answers, l->expected, 4 * l->requests * sizeof p->answers[0]) == 0;
        p->head = head;
    }
    return ok;
}

static bool mix_agrees(const contestant *c, pool *p)
{
    lf_tree_head head = p->head;
    bool ok = true;
    for (size_t i = 0; ok && i < p->mix.requests; i++) {
        lf_answer a = call_of_mix(c, p, p->mix.list + 4 * i);
        ok = memcmp(&a, p->mix.expected + 4 * i, sizeof a) == 0;
    }
    ok = ok && p->head.root == head.root;
    p->head = head;
    return ok;
}

bool agrees(const contestant *c, pool *p)
{
    static uint32_t table[RECORD_WORDS * POOL_RECORDS], index[3 * POOL_SEGMENTS];
    memcpy(table, p->table, sizeof table);
    memcpy(index, p->index, sizeof index);
    return find_in(c, p, p->named).number == p->named.number && lists_agree(c, p) && mix_agrees(c, p) &&
           memcmp(p->arena, p->copy, p->words * sizeof p->arena[0]) == 0 &&
           memcmp(p->table, table, sizeof table) == 0 && memcmp(p->index, index, sizeof index) == 0;
}
