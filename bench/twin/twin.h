// The C twin of the proved library: the same calls, the same numbers, the same stored words, on any memory. It is
// what the benchmark divides by, so it is written for speed, and has the proved code's ideas wherever they make it
// faster.
//
// Names: lf_ with -DPREFIX_LF (a library that takes the proved one's place in the comparison program), else
// TWIN_PREFIX, so that twins of several compilers stand in one program.
//
// TWIN_TILES    0: a map with a byte for each unit, all pairs of tickets compared.
//               1: the ideas of the proved code: a map of the blocks' first units alone, tickets compared only where
//                  they share a residue.
// TWIN_TEMPLATE 0: the tree pool's code is there once, and the form is passed to it.
//               1: it is there once for each form, with the form as a constant; a call chooses by its form.
// TWIN_EXIT     0: loops over words run to the end of a block of 256, so that the compiler can take many at a time.
//               1: loops over words leave at the first wrong one.
// TWIN_IN_PLACE 0: a session's words are copied out of its byte buffer and back; what is not used is compared with 0.
//               1: they are used where they lie, so the buffer has to be aligned to 4 bytes; what is not used is not
//                  looked at. For measuring alone, since it misses damage there.
#ifndef TWIN_H
#define TWIN_H

#include <stdbool.h>
#include <stddef.h>
#include <stdint.h>
#include <string.h>

#include "lingfurrow.h"

#ifndef TWIN_TILES
#define TWIN_TILES 0
#endif
#ifndef TWIN_TEMPLATE
#define TWIN_TEMPLATE 0
#endif
#ifndef TWIN_EXIT
#define TWIN_EXIT 0
#endif
#ifndef TWIN_IN_PLACE
#define TWIN_IN_PLACE 0
#endif

#ifdef PREFIX_LF
#define TWIN_PREFIX lf_
#endif
#ifndef TWIN_PREFIX
#define TWIN_PREFIX twin_
#endif
#define TWIN_PASTE(prefix, name) prefix##name
#define TWIN_NAME(prefix, name) TWIN_PASTE(prefix, name)
#define TWIN(name) TWIN_NAME(TWIN_PREFIX, name)

// For what passes several values in a struct, which then never lies in memory.
#define ALWAYS_INLINE inline __attribute__((always_inline))

enum {
    FORMS = 3, // of the tree pool: 1 up to this
    MOST_WORDS = 16384,
    MOST_WORDS_IN_FORM_2 = 1048576,
    MOST_CELLS = MOST_WORDS_IN_FORM_2 / 4,
    MOST_RECORDS = 256,
    MOST_REQUESTS = 1024,
    MOST_SEGMENTS = 256,
    MARKED_CELLS = 16384, // of arenas where the tree pool's tiles have a mark for each cell
    TILE_BITS = 9,        // of the places of tiles elsewhere; for few records there are fewer
    TILE_PLACES = 1 << TILE_BITS,
    FEW_RECORDS = 32,
    FEW_TILE_BITS = 6,
    RECORD_WORDS = 4,
    OLD_RECORD_WORDS = 3,
    MOST_PARTY = 255,
    REQUEST_WORDS = 4,
    MOST_TEXT_WORDS = 8192, // of the text program's pool
    TEXT_FORM = 1,
    TEXT_PARTY = 1,
    MOST_LINE = 64,  // bytes of a line that can be read
    LINE_BYTES = 68, // of a session's buffer for an unfinished line
};

// The numbers that calls answer.
enum {
    DONE = 0,
    UNSOUND = 1,
    BAD_WORDS = 2,
    NO_RECORD = 3,
    NO_TICKET = 4,
    NO_ROOM = 5,
    UNKNOWN_TICKET = 6,
    OTHER_BLOCK = 7,
    BAD_LENGTHS = 8,
    BAD_REQUEST = 9,
    MORE_ROOM = 10,
    BAD_FORM = 11,
    BAD_PARTY = 12,
};

typedef uint16_t __attribute__((may_alias)) half_word;

// A held block of the tree pool, in cells; no block has length 0.
typedef struct {
    uint32_t first, length;
} tile;

// A record: four words of the table.
typedef struct {
    uint32_t ticket, address, words, party;
} row;

#endif
