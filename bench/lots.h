// Damage by lot: some words of a sound pool are overwritten, most of them the pool's own.
#ifndef LOTS_H
#define LOTS_H

#include "pools.h"

void damage_by_lot(pool *p);

#endif
