/* How many bytes of stack a function uses, on a stack of its own that is painted before. */
#define _XOPEN_SOURCE 600

#include "stack.h"

#include <stdint.h>
#include <string.h>
#include <ucontext.h>

#define PAINT 0xA5

static _Alignas(16) uint8_t stack[16384];

size_t stack_used(void (*run)(void))
{
    ucontext_t outer;
    ucontext_t inner;
    size_t unused = 0;

    memset(stack, PAINT, sizeof stack);
    getcontext(&inner);
    inner.uc_stack.ss_sp = stack;
    inner.uc_stack.ss_size = sizeof stack;
    inner.uc_link = &outer;
    makecontext(&inner, run, 0);
    swapcontext(&outer, &inner);
    while (unused < sizeof stack && stack[unused] == PAINT) {
        unused++;
    }
    return sizeof stack - unused;
}
