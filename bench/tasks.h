// What is measured on a pool, and what the same bytes cost the machine itself.
#ifndef TASKS_H
#define TASKS_H

#include "timing.h"

enum call { FIND, PAIR, CUT, MIX, LIST, FORMAT, LINE, TIGHT_LINE, BURST };

const char *call_name(enum call c);

contest contest_of(enum call c, const pool *p);

#endif
