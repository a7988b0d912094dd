#include "bursts.h"

#include <stdio.h>
#include <string.h>

// ---- the state

// Where its parts begin (docs/ fix the layout).
enum { KEPT = 4, NEXT = 20, LINE = 24, TABLE = 92, ARENA = 4188, SERVING = 2 };

// Words are little-endian, as this machine's are.
void put_session(const pool *p, uint8_t state[LF_STATE_BYTES])
{
    const uint32_t front[6] = {SERVING, 0, (uint32_t)p->words, (uint32_t)p->records, p->head.root, p->head.next};
    memset(state, 0, LF_STATE_BYTES);
    memcpy(state, front, sizeof front);
    memcpy(state + TABLE, p->table, RECORD_WORDS * p->records * sizeof p->table[0]);
    memcpy(state + ARENA, p->arena, p->words * sizeof p->arena[0]);
}

void put_last_line(uint8_t state[LF_STATE_BYTES], const char *line, size_t bytes)
{
    state[KEPT] = (uint8_t)bytes;
    memcpy(state + LINE, line, bytes);
}

static void set_next_back(pool *p)
{
    memcpy(p->session + NEXT, &p->head.next, sizeof p->head.next);
}

// ---- bursts

// A request of a list and its answer, as one more line of a burst.
static void add_line(burst *b, const uint32_t *q, const uint32_t *a)
{
    char *text = (char *)b->text + b->bytes, *answer = (char *)b->answers + b->answered;
    size_t room = sizeof b->text - b->bytes, answer_room = sizeof b->answers - b->answered;
    if (q[0] == 1)
        b->bytes += (size_t)snprintf(text, room, "A\t%u\n", q[1]);
    else
        b->bytes += (size_t)snprintf(text, room, "R\t%u\t%u\t%u\n", q[1], q[2], q[3]);
    if (a[0] == 0)
        b->answered += (size_t)snprintf(answer, answer_room, "K\t%u\t%u\t%u\n", a[1], a[2], a[3]);
    else
        b->answered += (size_t)snprintf(answer, answer_room, "N\t%u\n", a[0]);
}

// A list in bursts of so many lines.
static void add_bursts(pool *p, const traffic *l, size_t lines)
{
    for (size_t i = 0; i < l->requests; i += lines) {
        burst *b = &p->bursts[p->burst_count++];
        size_t end = i + lines < l->requests ? i + lines : l->requests;
        b->bytes = b->answered = 0;
        b->last = end == l->requests;
        b->room = sizeof p->said;
        for (size_t k = i; k < end; k++)
            add_line(b, l->list + 4 * k, l->expected + 4 * k);
    }
    p->burst_lines += l->requests;
}

static void begin_bursts(pool *p)
{
    p->burst_count = p->burst_lines = 0;
    put_session(p, p->session);
    memcpy(p->session_copy, p->session, sizeof p->session);
}

void make_line_bursts(pool *p, bool tight)
{
    static traffic l;
    lf_tree_head head = p->head;
    lf_answer a = ask_for(&contestants[0], p, p->ask);
    if (a.number != 0 || give_back(&contestants[0], p, a).number != 0)
        fail(p, "a request was refused while bursts were made");
    p->head = head;
    l.requests = 2;
    memcpy(l.list, (const uint32_t[8]){1, p->ask, 0, 0, 2, a.ticket, a.address, a.words}, 8 * sizeof l.list[0]);
    memcpy(l.expected, &a, sizeof a);
    memcpy(l.expected + 4, &a, sizeof a);
    begin_bursts(p);
    add_bursts(p, &l, 1);
    for (size_t i = 0; tight && i < p->burst_count; i++)
        p->bursts[i].room = p->bursts[i].answered;
}

void make_list_bursts(pool *p, size_t lines)
{
    begin_bursts(p);
    for (size_t i = 0; i < LISTS; i++)
        add_bursts(p, &p->lists[i], lines);
}

lf_burst hand_over(const contestant *c, pool *p, const burst *b)
{
    lf_burst done = c->session_burst(p->session, sizeof p->session, b->text, b->bytes, p->said, b->room);
    if (b->last)
        set_next_back(p);
    return done;
}

// ---- whether a contestant does it rightly

// The same burst to the proved library, on a state of its own.
static bool burst_agrees(const contestant *c, pool *p, const burst *b, uint8_t ours[LF_STATE_BYTES])
{
    static uint8_t said[BURST_BYTES];
    lf_burst we = contestants[0].session_burst(ours, LF_STATE_BYTES, b->text, b->bytes, said, b->room);
    lf_burst done = c->session_burst(p->session, sizeof p->session, b->text, b->bytes, p->said, b->room);
    return we.number == 0 && done.number == 0 && we.taken == b->bytes && done.taken == b->bytes &&
           we.written == b->answered && done.written == b->answered && memcmp(said, b->answers, b->answered) == 0 &&
           memcmp(p->said, b->answers, b->answered) == 0 && memcmp(p->session, ours, LF_STATE_BYTES) == 0;
}

bool bursts_agree(const contestant *c, pool *p)
{
    static uint8_t ours[LF_STATE_BYTES];
    bool ok = true;
    for (size_t i = 0; ok && i < p->burst_count; i++) {
        memcpy(ours, p->session, sizeof ours);
        ok = burst_agrees(c, p, &p->bursts[i], ours);
        if (p->bursts[i].last) {
            set_next_back(p);
            ok = ok && memcmp(p->session, p->session_copy, sizeof p->session) == 0;
        }
    }
    return ok;
}
