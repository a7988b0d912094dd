// Times of several contestants at one task: many repetitions a sample, the contestants in rotated order, so that what
// disturbs the machine falls on all of them.
#ifndef TIMING_H
#define TIMING_H

#include "pools.h"
#include "samples.h"

// One repetition. It returns the sum of the numbers answered, so that a wrong answer is seen and no call is dropped.
typedef uint64_t (*task)(const contestant *, pool *);

// What the contestants do on a pool, and what the memory itself takes beside them. `answer` is the sum of the numbers
// that a repetition must give, and it counts as so many parts.
typedef struct {
    task work, limit;
    const char *limit_name;
    uint64_t answer;
    size_t parts;
    bool in_place; // contestants that work in place take part
} contest;

// All is measured in several passes, each of several rounds, so that a bad quarter of a second spoils one pass only.
typedef struct {
    int passes, rounds;
    double sample;   // nanoseconds that a sample should take
    double patience; // nanoseconds, in all, for samples that another thread on the core disturbed
} effort;

// Adds the samples of one pass.
void time_pass(timings *t, effort e, pool *p, contest c);

// The share of the samples that were disturbed and kept, since patience was at its end.
double disturbed(void);

#endif
