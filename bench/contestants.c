// The table of contestants.
#include "contestants.h"

#define DECLARE(P, call) __typeof__(lf_##call) P##call;
#define CONTESTANT(P, group, trees, name) CALLS(DECLARE, P)
#include "contestants.inc"
#undef CONTESTANT

#define NAME(P, call) P##call,
#define CONTESTANT(P, group, trees, name) {name, group, trees, CALLS(NAME, P)},
const contestant contestants[] = {
#include "contestants.inc"
};
const size_t contestant_count = sizeof contestants / sizeof contestants[0];
