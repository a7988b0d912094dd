// How much stack a call was seen to need, by pool size: on sound pools, and on any memory that is tried.
#include <stdio.h>
#include <stdlib.h>
#include <string.h>

#include "bursts.h"
#include "damage.h"
#include "lots.h"
#include "meter.h"

enum step { FIND, ALLOCATE, RELEASE, CUT, LIST, FORMAT, START, BURST, END, STEPS };

static const char *const step_names[STEPS] = {"find",   "allocate", "release", "trim", "list",
                                              "format", "start",    "burst",   "end"};

// ---- one call

// Beside the library, functions of the same types that return at once: what a call takes without what it does.
#define RETURN_AT_ONCE(P, call) __asm__(".globl " #P #call "\n" #P #call ":\n\tmov %rdi, %rax\n\tret\n");
CALLS(RETURN_AT_ONCE, idle_)

enum { LIBRARY, IDLE };

typedef struct {
    const contestant *who;
    pool *p;
    enum step step;
    uint32_t words;  // to allocate
    lf_answer block; // to find, release or trim
    const uint32_t *list;
    size_t requests;
    const char *line; // to a session
    size_t room;      // for its answer
} job;

static void do_session_job(const job *j)
{
    uint8_t *state = j->p->session, *said = j->p->said;
    if (j->step == START)
        j->who->session_start(state, LF_STATE_BYTES);
    else if (j->step == BURST)
        j->who->session_burst(state, LF_STATE_BYTES, (const uint8_t *)j->line, strlen(j->line), said, j->room);
    else
        j->who->session_end(state, LF_STATE_BYTES, said, j->room);
}

static void do_job(void *given)
{
    const job *j = given;
    if (j->step >= START)
        do_session_job(j);
    else if (j->step == FIND)
        find_in(j->who, j->p, j->block);
    else if (j->step == ALLOCATE)
        ask_for(j->who, j->p, j->words);
    else if (j->step == RELEASE)
        give_back(j->who, j->p, j->block);
    else if (j->step == CUT)
        trim(j->who, j->p, j->block, kept_of(j->block.words));
    else if (j->step == LIST)
        run_list(j->who, j->p, j->list, j->requests, j->p->answers);
    else
        format_pool(j->who, j->p);
}

// ---- the pool as it was before a call

static struct {
    lf_tree_head head;
    uint32_t arena[LARGE_WORDS], table[RECORD_WORDS * POOL_RECORDS], index[3 * POOL_SEGMENTS];
} kept[2];

static void keep(size_t i, const pool *p)
{
    kept[i].head = p->head;
    memcpy(kept[i].arena, p->arena, p->words * sizeof p->arena[0]);
    memcpy(kept[i].table, p->table, sizeof p->table);
    memcpy(kept[i].index, p->index, sizeof p->index);
}

static void put_back(size_t i, pool *p)
{
    p->head = kept[i].head;
    memcpy(p->arena, kept[i].arena, p->words * sizeof p->arena[0]);
    memcpy(p->table, kept[i].table, sizeof p->table);
    memcpy(p->index, kept[i].index, sizeof p->index);
}

// ---- the most that was seen

typedef struct {
    size_t bytes;
    enum step step;
    const char *pool;
    uint32_t segments;
} most;

// Of the pools of one size: the sound ones, and all of them.
typedef struct {
    most sound, any;
} seen;

static void see(most *m, most now)
{
    if (now.bytes > m->bytes)
        *m = now;
}

// The call is made on the pool, which then is as before.
static void meter(seen *s, bool sound, job j)
{
    static size_t idle[ENGINES][STEPS];
    pool *p = j.p;
    keep(0, p);
    if (idle[p->engine][j.step] == 0) {
        j.who = &contestants[IDLE];
        idle[p->engine][j.step] = stack_of(do_job, &j);
        p->head = kept[0].head;
    }
    j.who = &contestants[LIBRARY];
    most now = {stack_of(do_job, &j) - idle[p->engine][j.step], j.step, p->name, p->segments};
    put_back(0, p);
    see(&s->any, now);
    if (sound)
        see(&s->sound, now);
}

// ---- the calls on a pool

static lf_answer record_in(const pool *p, size_t slot)
{
    const uint32_t *r = p->table + RECORD_WORDS * slot;
    return (lf_answer){0, r[0], r[1], r[2]};
}

static size_t add_request(uint32_t *list, size_t n, uint32_t a, uint32_t b, uint32_t c, uint32_t d)
{
    memcpy(list + 4 * n, (const uint32_t[4]){a, b, c, d}, 4 * sizeof a);
    return n + 1;
}

// Every other record is released, then the others, then as many are granted.
static size_t make_requests(const pool *p, uint32_t *list)
{
    size_t n = 0;
    for (size_t i = 0; i < 2 * p->records; i++) {
        lf_answer r = record_in(p, i < p->records ? i : i - p->records);
        if (r.ticket != 0 && i % 2 == i / p->records % 2)
            n = add_request(list, n, 2, r.ticket, r.address, r.words);
    }
    uint32_t share = (uint32_t)(units_of(p) / p->records);
    for (size_t i = 0; i < p->records; i++)
        n = add_request(list, n, 1, words_for(p, 1 + random_below(share)), 0, 0);
    return n;
}

static void try_list(seen *s, bool sound, pool *p)
{
    static uint32_t list[4 * LIST_MOST];
    meter(s, sound, (job){.p = p, .step = LIST, .list = list, .requests = make_requests(p, list)});
}

// Each call once; on a sound pool also with every record and many lengths.
static void try_calls(seen *s, bool sound, pool *p)
{
    meter(s, sound, (job){.p = p, .step = FIND, .block = p->named});
    meter(s, sound, (job){.p = p, .step = ALLOCATE, .words = p->ask});
    meter(s, sound, (job){.p = p, .step = RELEASE, .block = p->named});
    meter(s, sound, (job){.p = p, .step = CUT, .block = p->named});
    try_list(s, sound, p);
    if (!sound)
        return;
    for (uint32_t words = 1; words <= p->words; words *= 2)
        meter(s, sound, (job){.p = p, .step = ALLOCATE, .words = words});
    for (size_t i = 0; i < p->records; i++) {
        meter(s, sound, (job){.p = p, .step = RELEASE, .block = record_in(p, i)});
        meter(s, sound, (job){.p = p, .step = CUT, .block = record_in(p, i)});
    }
    meter(s, sound, (job){.p = p, .step = FORMAT});
}

// A line in a burst, and as a last one without a line feed, to the session that the pool is.
static void try_line(seen *s, bool sound, pool *p, const char *line, size_t room)
{
    put_session(p, p->session);
    meter(s, sound, (job){.p = p, .step = BURST, .line = line, .room = room});
    put_session(p, p->session);
    put_last_line(p->session, line, strlen(line) - 1);
    meter(s, sound, (job){.p = p, .step = END, .room = room});
}

// The calls of a session, with room for any answer and with less.
static void try_session(seen *s, bool sound, pool *p)
{
    char lines[3][64];
    lf_answer b = p->named;
    snprintf(lines[0], sizeof lines[0], "A\t%u\n", p->ask);
    snprintf(lines[1], sizeof lines[1], "R\t%u\t%u\t%u\n", b.ticket, b.address, b.words);
    snprintf(lines[2], sizeof lines[2], "T\t%u\t%u\t%u\t%u\n", b.ticket, b.address, b.words, kept_of(b.words));
    for (size_t i = 0; i < 3; i++)
        for (size_t room = 4; room < 4 * LF_ANSWER_BYTES; room += 10)
            try_line(s, sound, p, lines[i], room);
    meter(s, sound, (job){.p = p, .step = START});
}

typedef void (*tries)(seen *s, bool sound, pool *p);

// A sound pool, then damaged by lot, so many times.
static void try_lots(seen *s, pool *p, int lots, tries try)
{
    keep(1, p);
    p->name = "damage by lot";
    for (int i = 0; i < lots; i++) {
        damage_by_lot(p);
        try(s, false, p);
        put_back(1, p);
    }
}

// ---- the pools of a size

static void must_answer(const pool *p)
{
    if (find_in(&contestants[LIBRARY], p, p->named).number != p->named.number)
        fail(p, "find answers otherwise");
}

static void try_pools(seen *s, enum engine e, size_t words, size_t records, uint32_t segments, int lots, tries try)
{
    static pool p;
    for (int state = EMPTY; state <= CROWDED; state++) {
        make_pool(&p, e, words, records, segments, (enum state)state);
        must_answer(&p);
        try(s, true, &p);
        try_lots(s, &p, lots, try);
    }
    for (const oddity *o = oddities; o < oddities + oddity_count; o++) {
        if (!has_engine(o, e) || (o->extent == AT_MOST_WORDS && words < POOL_WORDS))
            continue;
        make_odd(&p, e, words, records, segments, o);
        must_answer(&p);
        try(s, o->sound, &p);
        if (o->sound)
            try_lots(s, &p, lots, try);
    }
}

// ---- the table

static void print_most(const most *m, enum engine e)
{
    char cell[64];
    if (e == SEGMENT)
        snprintf(cell, sizeof cell, "%s, %s, S %u", step_names[m->step], m->pool, m->segments);
    else
        snprintf(cell, sizeof cell, "%s, %s", step_names[m->step], m->pool);
    printf(" %6zu | %-48s |", m->bytes, cell);
}

static void print_seen(const char *name, const seen *s, enum engine e, size_t words, size_t records)
{
    char size[32];
    snprintf(size, sizeof size, "%zu / %zu", words, records);
    printf("| %-7s | %-13s |", name, size);
    print_most(&s->sound, e);
    print_most(&s->any, e);
    printf("\n");
}

static void print_size(enum engine e, size_t words, size_t records, int lots)
{
    static const uint32_t segments[] = {4, 16, 64, 256};
    seen s = {{0, FIND, "", 0}, {0, FIND, "", 0}};
    for (size_t i = 0; i < (e == SEGMENT ? sizeof segments / sizeof segments[0] : 1); i++)
        try_pools(&s, e, words, records, segments[i], lots, try_calls);
    print_seen(engine_name(e), &s, e, words, records);
}

// A session's pool is a tree pool in form 1.
static void print_session_size(size_t words, size_t records, int lots)
{
    seen s = {{0, BURST, "", 0}, {0, BURST, "", 0}};
    try_pools(&s, TREE, words, records, 0, lots, try_session);
    print_seen("session", &s, TREE, words, records);
}

typedef struct {
    size_t words, records;
} lengths;

enum { SIZES_MOST = 8 };

// Of no words: there are no more.
static const lengths sizes[ENGINES][SIZES_MOST] = {
    [TREE] = {{24, 4}, {128, 8}, {1024, 16}, {4096, 64}, {16384, 16}, {16384, 256}},
    [TREE_2] = {{128, 8}, {1024, 16}, {4096, 64}, {16384, 256}, {65536, 256}, {1048576, 16}, {1048576, 256}},
    [TREE_3] = {{128, 4}, {1024, 16}, {16384, 16}, {16384, 256}},
    [SEGMENT] = {{24, 4}, {128, 8}, {1024, 16}, {4096, 64}, {16384, 16}, {16384, 256}},
};

static const lengths session_sizes[] = {{24, 4}, {1024, 16}, {TEXT_WORDS, 16}, {TEXT_WORDS, 256}};

int main(int argc, char **argv)
{
    int lots = argc > 1 ? atoi(argv[1]) : 250;
    printf(
        "Stack that a call was seen to need, in bytes, beside its arguments and return address; each sound pool also "
        "damaged by lot, %d times, above %d words a tenth as often:\n\n",
        lots, POOL_WORDS);
    printf("| %-7s | %-13s | %-6s | %-48s | %-6s | %-48s |\n", "engine", "words/slots", "sound", "call, pool", "any",
           "call, pool");
    printf("|---|---|---:|---|---:|---|\n");
    for (int e = 0; e < ENGINES; e++)
        for (const lengths *l = sizes[e]; l < sizes[e] + SIZES_MOST && l->words != 0; l++)
            print_size((enum engine)e, l->words, l->records, l->words <= POOL_WORDS ? lots : (lots + 9) / 10);
    for (size_t i = 0; i < sizeof session_sizes / sizeof session_sizes[0]; i++)
        print_session_size(session_sizes[i].words, session_sizes[i].records, lots);
    return 0;
}
