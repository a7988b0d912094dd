#include "samples.h"

#include <stdlib.h>

void add_entrant(timings *t, const contestant *who, const char *name, enum group group)
{
    timed *entrant = &t->by[t->count++];
    entrant->who = who;
    entrant->name = name;
    entrant->group = group;
}

static int by_size(const void *a, const void *b)
{
    double x = *(const double *)a, y = *(const double *)b;
    return (x > y) - (x < y);
}

// While the samples are still in their order.
static double median_by_round(const timings *t, const timed *us, const timed *other)
{
    double ratios[SAMPLES_MOST];
    for (size_t r = 0; r < t->taken; r++)
        ratios[r] = us->samples[r] / other->samples[r];
    qsort(ratios, t->taken, sizeof ratios[0], by_size);
    return ratios[t->taken / 2];
}

void sum_up(timings *t)
{
    const timed *us = t->by;
    while (us->group != PROVED)
        us++;
    for (size_t k = 0; k < t->count; k++)
        t->by[k].by_round = median_by_round(t, us, &t->by[k]);
    for (size_t k = 0; k < t->count; k++) {
        timed *w = &t->by[k];
        qsort(w->samples, t->taken, sizeof w->samples[0], by_size);
        w->least = w->samples[0];
        w->median = w->samples[t->taken / 2];
    }
}

const timed *quickest(const timings *t, enum group first, enum group last)
{
    const timed *best = NULL;
    for (size_t k = 0; k < t->count; k++)
        if (t->by[k].group >= first && t->by[k].group <= last && (best == NULL || t->by[k].least < best->least))
            best = &t->by[k];
    return best;
}

double most_by_round(const timings *t, enum group first, enum group last)
{
    double most = 0;
    for (size_t k = 0; k < t->count; k++)
        if (t->by[k].group >= first && t->by[k].group <= last && t->by[k].by_round > most)
            most = t->by[k].by_round;
    return most;
}

// ---- cells

double ratio(double a, double b)
{
    return b > 0 ? a / b : 0;
}

void print_against(FILE *to, const timed *us, const timed *other)
{
    if (other == NULL) {
        fprintf(to, " %28s | %13s |", "-", "-");
        return;
    }
    char cell[64];
    snprintf(cell, sizeof cell, "%.0f %s", other->least, other->name);
    fprintf(to, " %-28s | %5.2f (%5.2f) |", cell, ratio(us->least, other->least), other->by_round);
}

// Times under 100 are printed with a decimal.
void print_proved(FILE *to, const timed *us)
{
    char cell[64];
    int digits = us->least < 100;
    snprintf(cell, sizeof cell, "%.*f (%.*f)", digits, us->least, digits, us->median);
    fprintf(to, " %17s |", cell);
}
