// Samples of the times of several contestants, taken in rounds: minima, medians, and how the proved one stands to each
// of the others round by round.
#ifndef SAMPLES_H
#define SAMPLES_H

#include <stdio.h>

#include "contestants.h"

enum { ENTRANTS_MOST = 40, SAMPLES_MOST = 128 };

typedef struct {
    const contestant *who; // NULL: the limit
    const char *name;
    enum group group;
    double least, median; // nanoseconds
    double by_round;      // the proved one's sample by this one's in the same round: the median
    double samples[SAMPLES_MOST];
} timed;

typedef struct {
    size_t count, taken;
    timed by[ENTRANTS_MOST]; // the contestants in their order, then the limit
} timings;

void add_entrant(timings *t, const contestant *who, const char *name, enum group group);

// Minima, medians and ratios by round, once all rounds are done. Where the clock moves, a minimum may come from a quick
// moment that another contestant did not get; samples of one round are taken shortly after each other.
void sum_up(timings *t);

// The quickest of the groups, by minimum; NULL where there is none.
const timed *quickest(const timings *t, enum group first, enum group last);

// The largest ratio by round to any of the groups.
double most_by_round(const timings *t, enum group first, enum group last);

double ratio(double a, double b);

// Cells of a row of a table: the proved one's time; another's, with the ratio to it.
void print_proved(FILE *to, const timed *us);
void print_against(FILE *to, const timed *us, const timed *other);

#endif
