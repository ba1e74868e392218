/* Marks for the thread sanitizer, in a program that is built with it over a library that is not. It
 * sees no step of the library then, and would report each reclaim as a race. Its runtime is in the
 * program, so the library calls it if it is there. What came before a release comes, for it, before
 * what follows an acquire. A section's end is marked by the program's headers (urcu/sections.h): a
 * called section costs no more for it. */
#ifndef URCU_MARKS_H
#define URCU_MARKS_H
#include "layer.h"

#pragma GCC visibility push(default)
extern void __tsan_acquire(void *at) __attribute__((weak));
extern void __tsan_release(void *at) __attribute__((weak));
#pragma GCC visibility pop

/* Of what a callback reads; and in qsbr of what the thread read. */
static inline void mark_release(void) {
    if (unlikely(__tsan_release)) __tsan_release((void *)(uintptr_t)&CALL(flavor));
}

/* A grace period has ended. */
static inline void mark_acquire(void) {
    if (unlikely(__tsan_acquire)) __tsan_acquire((void *)(uintptr_t)&CALL(flavor));
}

#endif
