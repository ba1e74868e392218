/* The flavour cpp of the layer in bindings/urcu, included before each of its files (Makefile). It
 * adds names, and which of them are visible. */
#ifndef OVER_RCU_FLAVOUR_H
#define OVER_RCU_FLAVOUR_H
#ifndef _GNU_SOURCE
#define _GNU_SOURCE
#endif
#define URCU_OVER_RCU_BUILD
#include <urcu/flavours.h>
#include <urcu/over-rcu.h>
URCU_CALLS_OF_(cpp);
URCU_SECTIONS_OF_(cpp);
URCU_MORE_CALLS_OF_(cpp);

/* What the inlined sections read of a thread, by a name that stays. (The layer hides its names.) */
#define self urcu_cpp_self
#pragma GCC visibility push(default)
extern __thread struct reader self __attribute__((tls_model("initial-exec")));

extern char urcu_cpp_domain;
void urcu_cpp_retire(struct rcu_head *head, void (*run)(struct rcu_head *head));
void urcu_cpp_wait_for_evaluations(void);
void urcu_cpp_set_pressure(unsigned long most, unsigned milliseconds);
void urcu_cpp_wake_maker(void);
extern _Atomic unsigned long urcu_cpp_pressure_waits; /* for tests */
#pragma GCC visibility pop
#endif
