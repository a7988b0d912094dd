// The whole twin in one unit, as the proved library is one: the compiler sees every call.
#include "twin.h"

#include "words.c"
#if !TWIN_TILES || !TWIN_IN_PLACE
#include "bytes.c"
#endif
#include "table.c"
#include "tickets.c"
#include "segment_index.c"
#include "segment_check.c"
#include "segment_calls.c"
#if TWIN_TEMPLATE
#include "tree_names.h"
#define FORM 1
#include "tree.c"
#undef FORM
#define FORM 2
#include "tree.c"
#undef FORM
#define FORM 3
#include "tree.c"
#undef FORM
#else
#include "tree.c"
#endif
#include "tree_calls.c"
#define FORM 1 // of the text program's pool
#include "lines.c"
#include "session.c"
