// Who is measured: the proved library, and its C twins as several compilers build them. The list is written by the
// script `run`, one line for each: CONTESTANT(prefix, group, trees, "name").
#ifndef CONTESTANTS_H
#define CONTESTANTS_H

#include <stdbool.h>
#include <stddef.h>
#include <stdint.h>

#include "lingfurrow.h"

// ONE(P, call) for each call. Every contestant has them under its own prefix, with the types of the header.
#define CALLS(ONE, P)                                                                                                \
    ONE(P, tree_format)                                                                                              \
    ONE(P, tree_allocate)                                                                                            \
    ONE(P, tree_release)                                                                                             \
    ONE(P, tree_trim)                                                                                                \
    ONE(P, tree_find)                                                                                                \
    ONE(P, tree_list)                                                                                                \
    ONE(P, segment_format)                                                                                           \
    ONE(P, segment_allocate)                                                                                         \
    ONE(P, segment_release)                                                                                          \
    ONE(P, segment_trim)                                                                                             \
    ONE(P, segment_find)                                                                                             \
    ONE(P, segment_list)                                                                                             \
    ONE(P, session_start)                                                                                            \
    ONE(P, session_burst)                                                                                            \
    ONE(P, session_end)

enum group {
    PROVED,
    MARKS_UNITS,
    LAYS_TILES,
    IN_PLACE, // has a session's words where they lie; for bursts and the text program alone
    EARLIER,  // an earlier build of the text program
    LIMIT,
};

typedef struct {
    const char *name;
    enum group group;
    bool trees; // its segment pool is another's too, and only its tree pool is measured
#define FIELD(P, call) __typeof__(P##call) *call;
    CALLS(FIELD, lf_)
#undef FIELD
} contestant;

// The proved library is the first of them.
extern const contestant contestants[];
extern const size_t contestant_count;

#endif
