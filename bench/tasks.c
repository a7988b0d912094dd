#include "tasks.h"

#include <stdlib.h>
#include <string.h>

#include "bursts.h"

const char *call_name(enum call c)
{
    static const char *const names[] = {
        "find",   "allocate + release", "with trim between",       "mix, per call",        "list, per request",
        "format", "burst of a line",    "burst, room just enough", "burst of 64, per line"};
    return names[c];
}

// ---- the calls; each leaves the pool as it was

static uint64_t find_once(const contestant *c, pool *p)
{
    return find_in(c, p, p->named).number;
}

static uint64_t pair_once(const contestant *c, pool *p)
{
    lf_tree_head head = p->head;
    lf_answer block = ask_for(c, p, p->ask);
    uint64_t sum = block.number + give_back(c, p, block).number;
    p->head = head;
    return sum;
}

// Half of the words are given back before the others.
static uint64_t cut_once(const contestant *c, pool *p)
{
    lf_tree_head head = p->head;
    lf_answer block = ask_for(c, p, p->ask);
    lf_answer kept = trim(c, p, block, kept_of(block.words));
    uint64_t sum = block.number + kept.number + give_back(c, p, kept).number;
    p->head = head;
    return sum;
}

static uint64_t mix_once(const contestant *c, pool *p)
{
    lf_tree_head head = p->head;
    uint64_t sum = 0;
    for (size_t i = 0; i < p->mix.requests; i++)
        sum += call_of_mix(c, p, p->mix.list + 4 * i).number;
    p->head = head;
    return sum;
}

static uint64_t list_once(const contestant *c, pool *p)
{
    lf_tree_head head = p->head;
    uint64_t sum = 0;
    for (size_t i = 0; i < LISTS; i++) {
        sum += run_list(c, p, p->lists[i].list, p->lists[i].requests, p->answers).number;
        p->head = head;
    }
    return sum;
}

// On an empty pool alone: it is formatted already.
static uint64_t format_once(const contestant *c, pool *p)
{
    return format_pool(c, p).number;
}

static uint64_t bursts_once(const contestant *c, pool *p)
{
    uint64_t sum = 0;
    for (const burst *b = p->bursts; b < p->bursts + p->burst_count; b++) {
        lf_burst done = hand_over(c, p, b);
        sum += done.number + (done.written != b->answered);
    }
    return sum;
}

// ---- the limits

static int (*volatile compare)(const void *, const void *, size_t) = memcmp;
static void *(*volatile set)(void *, int, size_t) = memset;

static uint64_t compare_once(const contestant *c, pool *p)
{
    (void)c;
    return compare(p->arena, p->copy, p->words * sizeof p->arena[0]) != 0;
}

static uint64_t compare_twice(const contestant *c, pool *p)
{
    return compare_once(c, p) + compare_once(c, p);
}

static uint64_t compare_thrice(const contestant *c, pool *p)
{
    return compare_once(c, p) + compare_twice(c, p);
}

static uint64_t compare_for_mix(const contestant *c, pool *p)
{
    uint64_t sum = 0;
    for (size_t i = 0; i < p->mix.requests; i++)
        sum += compare_once(c, p);
    return sum;
}

// The requests of a list, to the C library: the same lengths in the same order, memory not cleared.
static void malloc_list(const traffic *l)
{
    static void *volatile blocks[LIST_MOST];
    for (size_t i = 0; i < l->requests; i++) {
        const uint32_t *q = l->list + 4 * i;
        if (q[0] == 1)
            blocks[i] = malloc(q[1] * sizeof(uint32_t));
        else
            free(blocks[l->granted_by[i]]);
    }
}

static uint64_t malloc_once(const contestant *c, pool *p)
{
    (void)c;
    for (size_t i = 0; i < LISTS; i++)
        malloc_list(&p->lists[i]);
    return 0;
}

// The bytes that format writes, in buffers of their own.
static uint64_t set_once(const contestant *c, pool *p)
{
    static uint32_t arena[LARGE_WORDS], table[RECORD_WORDS * POOL_RECORDS], index[3 * POOL_SEGMENTS];
    (void)c;
    set(arena, 0, p->words * sizeof arena[0]);
    set(table, 0, RECORD_WORDS * p->records * sizeof table[0]);
    if (p->engine == SEGMENT)
        set(index, 0, 3 * p->segments * sizeof index[0]);
    return 0;
}

// The whole state, used or not, for each burst.
static uint64_t compare_states(const contestant *c, pool *p)
{
    uint64_t sum = 0;
    (void)c;
    for (size_t i = 0; i < p->burst_count; i++)
        sum += compare(p->session, p->session_copy, sizeof p->session) != 0;
    return sum;
}

contest contest_of(enum call c, const pool *p)
{
    switch (c) {
    case FIND:
        return (contest){find_once, compare_once, "memcmp", p->named.number, 1, false};
    case PAIR:
        return (contest){pair_once, compare_twice, "memcmp, twice", 0, 1, false};
    case CUT:
        return (contest){cut_once, compare_thrice, "memcmp, thrice", 0, 1, false};
    case MIX:
        return (contest){mix_once, compare_for_mix, "memcmp", 0, p->mix.requests, false};
    case LIST:
        return (contest){list_once, malloc_once, "malloc, free", 0, p->requests, false};
    case FORMAT:
        return (contest){format_once, set_once, "memset", 0, 1, false};
    default:
        return (contest){bursts_once, compare_states, "memcmp", 0, p->burst_lines, true};
    }
}
