/* The stack of a piece of work: it runs on a stack filled with one byte, and the deepest changed byte is found. */
#ifndef STACK_H
#define STACK_H

#include "timing.h"

/* In bytes, without those that an empty function needs. Run the work once before, so that dynamic linking is done. */
size_t stack_of(work *piece);

#endif
