// The tree pool, in one form or in any.
#include "tree_nodes.c"
#include "tree_map.c"
#include "tree_walk.c"
#include "tree_blocks.c"
#include "tree_requests.c"
