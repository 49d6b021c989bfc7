/* How many bytes of stack a function uses, on a stack of its own that is painted before. */
#ifndef STACK_H
#define STACK_H

#include <stddef.h>

/* Runs the function; returns the bytes from the stack's top down to the last one overwritten. */
size_t stack_used(void (*run)(void));

#endif
