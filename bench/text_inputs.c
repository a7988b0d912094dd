#include "text_inputs.h"

#include <stdint.h>
#include <stdlib.h>

#include "lingfurrow.h"

const char *input_name(enum input i)
{
    static const char *const names[INPUTS] = {"request and release in turn", "200 live records, trims among them",
                                              "mostly bad lines"};
    return names[i];
}

enum { WORDS = 8192, SLOTS = 256, LIVE_MOST = 200, PARTY = 1 };

// A pool beside the program's, which says what is granted.
static uint32_t arena[WORDS], table[LF_TABLE_WORDS(SLOTS)];
static lf_tree_head head;
static lf_answer live[SLOTS];
static size_t live_count;

static uint64_t seed;

static uint32_t random_below(uint32_t n)
{
    seed ^= seed << 13;
    seed ^= seed >> 7;
    seed ^= seed << 17;
    return (uint32_t)(seed >> 20) % n;
}

static lf_answer taken(lf_tree_outcome o)
{
    if (o.answer.number != LF_OK) {
        fprintf(stderr, "bench: a line was refused while the input was made\n");
        exit(1);
    }
    head = o.head;
    return o.answer;
}

static void ask(FILE *to, uint32_t words)
{
    fprintf(to, "A\t%u\n", words);
    live[live_count++] = taken(lf_tree_allocate(head, arena, WORDS, table, LF_TABLE_WORDS(SLOTS), PARTY, words));
}

static void give(FILE *to, size_t k)
{
    lf_answer b = live[k];
    fprintf(to, "R\t%u\t%u\t%u\n", b.ticket, b.address, b.words);
    taken(lf_tree_release(head, arena, WORDS, table, LF_TABLE_WORDS(SLOTS), PARTY, b.ticket, b.address, b.words));
    live[k] = live[--live_count];
}

static void trim(FILE *to, size_t k)
{
    lf_answer b = live[k];
    uint32_t keep = 1 + random_below(b.words);
    fprintf(to, "T\t%u\t%u\t%u\t%u\n", b.ticket, b.address, b.words, keep);
    live[k] = taken(
        lf_tree_trim(head, arena, WORDS, table, LF_TABLE_WORDS(SLOTS), PARTY, b.ticket, b.address, b.words, keep));
}

static void write_pair_line(FILE *to)
{
    if (live_count == 0)
        ask(to, 1 + random_below(64));
    else
        give(to, 0);
}

// Requests take 20 words in the mean, so the pool is about half full.
static void write_live_line(FILE *to)
{
    uint32_t lot = random_below(5);
    if (live_count < LIVE_MOST && (lot < 3 || live_count < LIVE_MOST - 20))
        ask(to, 1 + random_below(40));
    else if (lot % 2 == 0)
        trim(to, random_below((uint32_t)live_count));
    else
        give(to, random_below((uint32_t)live_count));
}

static void write_bad_line(FILE *to)
{
    static const char *const lines[] = {"",
                                        "A",
                                        "A\t",
                                        "A\t01",
                                        "A\t-1",
                                        "A\t4294967296",
                                        "A 5",
                                        "R\t1\t0",
                                        "R\t1\t0\t1\t",
                                        "P\t24\t4",
                                        "a\t5",
                                        "T\t1\t0\t2",
                                        "A\t5\r",
                                        "release 1 0 3",
                                        "R\t999999\t0\t1"};
    if (random_below(8) == 0)
        write_pair_line(to);
    else
        fprintf(to, "%s\n", lines[random_below(sizeof lines / sizeof lines[0])]);
}

void write_input(FILE *to, enum input i, size_t lines)
{
    static void (*const write_line[INPUTS])(FILE *) = {write_pair_line, write_live_line, write_bad_line};
    seed = 88172645463325252u;
    live_count = 0;
    taken(lf_tree_format(1, arena, WORDS, table, LF_TABLE_WORDS(SLOTS), 1));
    fprintf(to, "P\t%d\t%d\n", WORDS, SLOTS);
    for (size_t n = 1; n < lines; n++)
        write_line[i](to);
}
