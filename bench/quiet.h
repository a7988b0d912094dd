// Whether the core is ours alone. Two threads of a core share its adders, so a loop that keeps them all busy takes half
// again as long, or twice, beside another thread; which may be another guest's of the same host and is in no load
// average.
#ifndef QUIET_H
#define QUIET_H

#include <stdbool.h>

// Nanoseconds of a clock that never goes back.
double now(void);

// Learns, in some seconds, how long the loop takes alone.
void learn_quiet(void);

// Runs the loop, in about a microsecond: whether it took as long as alone.
bool is_quiet(void);

#endif
