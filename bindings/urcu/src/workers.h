/* A worker: a thread, and the callbacks that it is to run. */
#ifndef URCU_WORKERS_H
#define URCU_WORKERS_H
#include "layer.h"

#pragma GCC visibility push(hidden)

struct call_rcu_data {
    _Alignas(64) _Atomic(struct rcu_head *) last; /* pushed last; each leads to the one before */
    _Alignas(64) struct call_rcu_data *next;
    pthread_cond_t work;
    pthread_t thread;
    int cpu;
    bool stop, paused, is_over;
    bool hurried;           /* it does not rest before its next batch */
    struct rcu_head marker; /* of a barrier */
    atomic_ulong running;   /* how many it took, and did not run yet */
    struct timespec since;  /* when the first one was pushed */
    struct timespec running_since;
};

extern uint64_t callbacks_run; /* under the lock */

/* All workers, under the lock, the newest first; and the one that threads have by default. */
extern struct call_rcu_data *workers;
extern _Atomic(struct call_rcu_data *) main_worker;

/* Whoever visits the workers holds it, so that none goes. It is taken before the lock. */
extern pthread_mutex_t visits;

/* Who makes the default worker holds it, and who forks. It is taken between the two. */
extern pthread_mutex_t making_default;

/* callbacks.c */
void push(struct call_rcu_data *worker, struct rcu_head *head);
void push_all(struct call_rcu_data *worker, struct rcu_head *last);
void *work(void *it);

/* barriers.c */
void forget_markers(void);

/* workers.c */
struct call_rcu_data *default_worker(void);
void start_worker(struct call_rcu_data *worker);
void tell_over(struct call_rcu_data *worker);
bool has_worker_of_a_cpu(void);
void forget_workers_of_cpus(void);

#pragma GCC visibility pop
#endif
