// Sound pools laid block by block, where a state has to be reached that calls seldom leave.
#ifndef SHAPES_H
#define SHAPES_H

#include "pools.h"

// Blocks side by side from the first unit to the last: a free one before each held one, and one behind the last.
// Their lengths are units; a free block of 0 units is none.
typedef struct {
    size_t held_count;
    uint32_t free[POOL_RECORDS + 1], held[POOL_RECORDS];
} strip;

typedef struct {
    size_t first, units;
} run;

// The free runs of a sound pool, as its table says; how many.
size_t free_runs(const pool *p, run runs[POOL_RECORDS + 1]);

// The node of the tree pool that a link leads to, and its links.
uint32_t *node_at(pool *p, size_t link);
size_t left_of(const pool *p, size_t link);
size_t right_of(const pool *p, size_t link);
void set_links(pool *p, size_t link, size_t left, size_t right);

// The least units that a held block takes.
uint32_t least_held(const pool *p);

// All slots live, and a gap of one length beside every record: in the tree pool a chain to the right.
strip equal_gaps(const pool *p);

// Gaps that grow by a unit each, as many as there is room for: in the tree pool a chain to the left.
strip rising_gaps(const pool *p);

// Writes the stored form of these blocks, with their holders' words; find is to name one in the middle.
void lay(pool *p, const strip *s);

#endif
