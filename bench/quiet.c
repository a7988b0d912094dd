#include "quiet.h"

#include <stddef.h>
#include <stdint.h>
#include <time.h>

double now(void)
{
    struct timespec t;
    clock_gettime(CLOCK_MONOTONIC, &t);
    return 1e9 * (double)t.tv_sec + (double)t.tv_nsec;
}

// Six sums that do not wait for each other. The empty statement keeps the compiler from adding up beforehand.
static double beat(void)
{
    size_t a = 0, b = 0, c = 0, d = 0, e = 0, f = 0;
    double start = now();
    for (int i = 0; i < 2000; i++) {
        a++, b++, c++, d++, e++, f++;
        __asm__ volatile("" : "+r"(a), "+r"(b), "+r"(c), "+r"(d), "+r"(e), "+r"(f));
    }
    return now() - start;
}

static double alone = 1e9;

// Beside another thread it takes 1.4 times as long and more; between that and 1.05 there is next to nothing.
bool is_quiet(void)
{
    double took = beat();
    if (took < alone)
        alone = took;
    return took <= 1.1 * alone;
}

void learn_quiet(void)
{
    for (double end = now() + 3e9; now() < end;)
        is_quiet();
}
