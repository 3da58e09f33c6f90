#include "stack.h"

#include <string.h>
#include <ucontext.h>

enum { STACK_BYTES = 1 << 18, PAINT = 0xA5 };

static _Alignas(16) unsigned char stack[STACK_BYTES];
static ucontext_t caller, callee;
static work *job;

static void nothing(void) {}

static void start(void)
{
    job();
}

/* The number of bytes from the deepest one written to the stack's start. */
static size_t written_by(work *piece)
{
    size_t free = 0;

    memset(stack, PAINT, sizeof stack);
    getcontext(&callee);
    callee.uc_stack.ss_sp = stack;
    callee.uc_stack.ss_size = sizeof stack;
    callee.uc_link = &caller;
    job = piece;
    makecontext(&callee, start, 0);
    swapcontext(&caller, &callee);
    while (free < sizeof stack && stack[free] == PAINT)
        free++;
    return sizeof stack - free;
}

size_t stack_of(work *piece)
{
    return written_by(piece) - written_by(nothing);
}
