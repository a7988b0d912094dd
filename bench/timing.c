#include "timing.h"

#include <stdio.h>
#include <stdlib.h>

#include "quiet.h"

// The time of one repetition. One more goes before, untimed: another contestant, or the limit in buffers of its own, may
// have taken a large pool out of the caches.
static double sample(const contest *c, const contestant *who, pool *p, size_t repetitions)
{
    bool limit = who == NULL;
    task work = limit ? c->limit : c->work;
    uint64_t sum = 0;
    work(who, p);
    double start = now();
    for (size_t i = 0; i < repetitions; i++)
        sum += work(who, p);
    double took = now() - start;
    if (sum != (limit ? 0 : repetitions * c->answer)) {
        fprintf(stderr, "bench: %s: a wrong answer while it was measured\n", limit ? c->limit_name : who->name);
        exit(1);
    }
    return took / (double)repetitions;
}

static double lost; // nanoseconds that went into samples that were taken anew
static size_t kept, disturbed_ones;

double disturbed(void)
{
    return kept == 0 ? 0 : (double)disturbed_ones / (double)kept;
}

// A sample with the core ours alone before it and behind it. Another is taken anew, as long as there is patience left.
static double quiet_sample(effort e, const contest *c, const contestant *who, pool *p, size_t repetitions)
{
    for (;;) {
        double start = now();
        bool before = is_quiet();
        bool patient = lost < e.patience;
        if (before || !patient) {
            double took = sample(c, who, p, repetitions);
            bool quiet = before && is_quiet();
            if (quiet || !patient) {
                kept++;
                disturbed_ones += !quiet;
                return took;
            }
        }
        lost += now() - start;
    }
}

static size_t repetitions_for(double nanoseconds, const contest *c, const contestant *who, pool *p)
{
    for (size_t n = 1;; n *= 2) {
        double took = sample(c, who, p, n) * (double)n;
        if (took >= nanoseconds / 4)
            return (size_t)(nanoseconds * (double)n / took) + 1;
    }
}

static void name_entrants(timings *t, const contest *c, const pool *p)
{
    t->count = 0;
    for (const contestant *who = contestants; who < contestants + contestant_count; who++)
        if ((is_tree(p) || !who->trees) && (who->group != IN_PLACE || c->in_place))
            add_entrant(t, who, who->name, who->group);
    add_entrant(t, NULL, c->limit_name, LIMIT);
}

void time_pass(timings *t, effort e, pool *p, contest c)
{
    size_t repetitions[ENTRANTS_MOST];
    name_entrants(t, &c, p);
    for (size_t k = 0; k < t->count; k++)
        repetitions[k] = repetitions_for(e.sample, &c, t->by[k].who, p);
    for (int r = 0; r < e.rounds; r++) {
        for (size_t i = 0; i < t->count; i++) {
            size_t k = (i + t->taken) % t->count;
            t->by[k].samples[t->taken] = quiet_sample(e, &c, t->by[k].who, p, repetitions[k]) / (double)c.parts;
        }
        t->taken++;
    }
}
