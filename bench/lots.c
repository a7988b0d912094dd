#include "lots.h"

#include "shapes.h"

// What may stand where another word stood.
static uint32_t some_word(const pool *p, uint32_t was)
{
    uint32_t units = (uint32_t)units_of(p);
    switch (random_below(8)) {
    case 0:
        return 0;
    case 1:
        return was + 1;
    case 2:
        return was - 1;
    case 3:
        return random_below(units + 2);
    case 4:
        return -random_below(units + 2);
    case 5:
        return p->arena[random_below((uint32_t)p->words)];
    case 6:
        return was ^ 1u << random_below(32);
    default:
        return random_below(0xffffffff);
    }
}

static void strike(const pool *p, uint32_t *words, size_t count)
{
    uint32_t *at = words + random_below((uint32_t)count);
    *at = some_word(p, *at);
}

// A free block's length or links; in the segment pool its control word, or that of the block behind it.
static void strike_header(pool *p, const run *runs, size_t count)
{
    run r = runs[random_below((uint32_t)count)];
    if (is_tree(p))
        strike(p, p->arena + unit_words(p) * r.first, cell_words(p));
    else
        strike(p, p->arena + (r.first + random_below(2) * r.units) % p->words, 1);
}

// A link to some node, itself and those above it among them, or to some cell.
static void strike_link(pool *p, const run *runs, size_t count)
{
    uint32_t cells = unit_cells(p), to = cells * (uint32_t)runs[random_below((uint32_t)count)].first + 1;
    if (random_below(4) == 0)
        to = random_below(cells * (uint32_t)units_of(p)) + 1;
    size_t link = cells * runs[random_below((uint32_t)count)].first + 1;
    if (random_below(2) == 0)
        set_links(p, link, to, right_of(p, link));
    else
        set_links(p, link, left_of(p, link), to);
}

static void strike_once(pool *p, const run *runs, size_t count)
{
    uint32_t lot = random_below(16);
    if (lot == 0)
        strike(p, &p->head.next, 1);
    else if (lot == 1 && is_tree(p))
        strike(p, &p->head.root, 1);
    else if (lot <= 3)
        strike(p, p->table, RECORD_WORDS * p->records);
    else if (lot <= 5)
        strike(p, p->arena, p->words);
    else if (lot <= 8 && p->engine == SEGMENT)
        strike(p, p->index, 3 * p->segments);
    else if (lot <= 11 && is_tree(p) && count > 0)
        strike_link(p, runs, count);
    else if (count > 0)
        strike_header(p, runs, count);
}

// Now and then all links lead to other nodes.
void damage_by_lot(pool *p)
{
    run runs[POOL_RECORDS + 1];
    size_t count = free_runs(p, runs);
    bool relink = is_tree(p) && count > 0 && random_below(8) == 0;
    for (size_t i = 0; relink && i < 2 * count; i++)
        strike_link(p, runs, count);
    for (uint32_t left = 1 + random_below(4); left > 0; left--)
        strike_once(p, runs, count);
}
