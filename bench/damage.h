// Pools out of the ordinary: damaged ones, and sound ones that are more work to check than what calls commonly leave.
#ifndef DAMAGE_H
#define DAMAGE_H

#include "pools.h"

enum engines { TREES, SEGMENTS, BOTH };

// On which lengths it is measured.
enum extent { EVERYWHERE, AT_MOST_WORDS, AT_MOST_RECORDS, AS_WORDS_GROW };

typedef struct {
    const char *name;
    enum engines engines; // which have it
    enum state from;      // it is made of such a pool
    void (*change)(pool *p);
    enum extent extent;
    bool sound;
} oddity;

extern const oddity oddities[];
extern const size_t oddity_count;

bool has_engine(const oddity *o, enum engine e);

void make_odd(pool *p, enum engine e, size_t words, size_t records, uint32_t segments, const oddity *o);

#endif
