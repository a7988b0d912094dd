// How much stack a piece of work needs, seen by painting: it runs on a stack of its own, all of whose words read the
// same before; the lowest word that changed shows how far down it went.
#ifndef METER_H
#define METER_H

#include <stddef.h>

// Bytes from the stack's top to the lowest one written, the meter's own among them. Work that needs more than there
// is ends the program.
size_t stack_of(void (*work)(void *), void *with);

#endif
