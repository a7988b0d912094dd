// A pool as a session of the text program, and bursts of lines to it.
#ifndef BURSTS_H
#define BURSTS_H

#include "pools.h"

// The state of a session that serves the pool, in form 1, of at most TEXT_WORDS words.
void put_session(const pool *p, uint8_t state[LF_STATE_BYTES]);

// An unfinished line of so many bytes, at most 65, in a state that had none.
void put_last_line(uint8_t state[LF_STATE_BYTES], const char *line, size_t bytes);

// A burst of one line for a request and one for its release; or the lists of the pool, which must have been made, in
// bursts of so many lines. `tight`: the room lent is that of the answers and no more.
void make_line_bursts(pool *p, bool tight);
void make_list_bursts(pool *p, size_t lines);

// One burst to the pool's session. Behind the last of several the next ticket is set back.
lf_burst hand_over(const contestant *c, pool *p, const burst *b);

// Whether the contestant answers all bursts as lists were answered, and leaves every byte of the state as the proved
// library does.
bool bursts_agree(const contestant *c, pool *p);

#endif
