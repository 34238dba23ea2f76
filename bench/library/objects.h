/* objects.h: what a store gives the measure: the objects of bench/peers, which its chunk layer gives for other stores. A call that fails ends the program. */
#ifndef OBJECTS_H
#define OBJECTS_H

#include "../peers/chunks.h"

/* Ends the program. */
void fail(const char *what, const char *why);

#endif
