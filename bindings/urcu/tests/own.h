/* What the tests share. They are built for one flavour: by the macros of urcu.h (RCU_MB,
 * RCU_SIGNAL), or with USE_BP or USE_QSBR; with NO_EXTRAS over liburcu 0.13 too. */
#ifndef OWN_H
#define OWN_H
#ifndef _GNU_SOURCE
#define _GNU_SOURCE
#endif
#ifdef USE_QSBR
#include <urcu-qsbr.h>
#elif defined(USE_BP)
#include <urcu-bp.h>
#else
#include <urcu.h>
#endif
#ifndef NO_EXTRAS
#include <urcu/over-rcu.h>
#define EXTRA(name) URCU_OF_(name)
#endif
#include <pthread.h>
#include <sched.h>
#include <signal.h>
#include <stdbool.h>
#include <stdio.h>
#include <stdlib.h>
#include <string.h>
#include <unistd.h>
#include <urcu/futex.h>
#include <urcu/uatomic.h>

/* In the other flavours these do nothing. */
#ifdef USE_QSBR
#define IN_QSBR(call) call()
#else
#define IN_QSBR(call) ((void)0)
#endif
static inline void quiescent(void) {
    IN_QSBR(rcu_quiescent_state);
}
static inline void offline(void) {
    IN_QSBR(rcu_thread_offline);
}
static inline void online(void) {
    IN_QSBR(rcu_thread_online);
}

/* A thing that readers follow. Of one that was freed `twice` is wrong. */
struct node {
    struct rcu_head head;
    unsigned long value, twice;
};
extern struct node *shown;
extern unsigned long wrong, freed;
extern int over;

struct node *fresh(unsigned long value);
void spoil(struct node *it);
void ripe(struct rcu_head *head);
struct node *replace(unsigned long value);
void look(bool slowly);
void *update(void *it); /* until it is over */
void rest(unsigned milliseconds);

/* A thread that is in a section from open_section to close_section, and is then as it says. */
struct holder {
    pthread_t thread;
    int step;
};
void open_section(struct holder *holder);
void close_section(struct holder *holder); /* it stays, quiet, until its end */
void end_holder(struct holder *holder);

/* Each test: whether all was right. */
int sections(unsigned n), waits(unsigned n), nests(unsigned n), crowd(unsigned n);
int forgets(unsigned n), cancels(unsigned n), quiet(unsigned n), ends(unsigned n);
int callbacks(unsigned n), batches(unsigned n), barriers(unsigned n), workers(unsigned n);
int chains(unsigned n), memory(unsigned n), gathers(unsigned n), answers(unsigned n);
int joins(unsigned n), engines(unsigned n), barriers_alone(unsigned n);
int defers(unsigned n), values(unsigned n), polls(unsigned n);
int signals(unsigned n), handlers(unsigned n);
int forks(unsigned n), forks_by_handlers(unsigned n);
int bare_forks(unsigned n), forks_in_sections(unsigned n), bare_callbacks(unsigned n);
int reports(unsigned n), misuse(unsigned n);
#endif
