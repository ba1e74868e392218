/* The workers: one that all threads have by default, and those that a program makes for a processor
 * of the machine or for a thread. Each is a thread with all signals blocked, and is not stopped
 * when the process ends. It adds nothing to the order of threads but the lock. */
#include "workers.h"
#include <errno.h>
#include <sched.h>
#include <signal.h>
#include <stdlib.h>
#include <unistd.h>

struct call_rcu_data *workers;
_Atomic(struct call_rcu_data *) main_worker;
pthread_mutex_t visits = PTHREAD_MUTEX_INITIALIZER;
pthread_mutex_t making_default = PTHREAD_MUTEX_INITIALIZER;

typedef _Atomic(struct call_rcu_data *) worker_of_cpu;
static _Atomic(worker_of_cpu *) of_cpus; /* one for each processor of the machine, or null */
static long machine_cpus;

/* ---- making one. Not with the lock held, as it takes memory. */

void start_worker(struct call_rcu_data *worker) {
    sigset_t every, before;
    sigfillset(&every); /* a signal handler of the program's runs in its own threads */
    pthread_sigmask(SIG_SETMASK, &every, &before);
    if (pthread_create(&worker->thread, 0, work, worker)) fail("call_rcu", "no thread is left");
    pthread_sigmask(SIG_SETMASK, &before, 0); /* the caller's own, as they were */
}

struct call_rcu_data *CALL(create_call_rcu_data)(unsigned long flags, int cpu) {
    struct call_rcu_data *worker = aligned_alloc(_Alignof(struct call_rcu_data), sizeof *worker);
    (void)flags;
    if (!worker) fail("call_rcu", "out of memory");
    *worker = (struct call_rcu_data){.cpu = cpu};
    make_condition(&worker->work);
    start_worker(worker); /* not with the lock held, as the thread takes it */
    hold();
    while (all.pausing) sleep_on(&all.resumed); /* else a child may have half of the change */
    worker->next = workers;
    workers = worker; /* under the lock: barriers, forks and counters walk the list */
    let_go();
    return worker;
}

/* Who finds it finds it whole (acquire, release). Two threads that both find none take turns. */
struct call_rcu_data *default_worker(void) {
    struct call_rcu_data *worker = atomic_load_explicit(&main_worker, memory_order_acquire);
    if (likely(worker)) return worker;
    pthread_mutex_lock(&making_default); /* not the layer's, which the new thread takes */
    worker = atomic_load(&main_worker); /* once more: else a second one would be made */
    if (!worker) {
        worker = CALL(create_call_rcu_data)(0, -1);
        /* Release: call_rcu loads it with no lock, and pushes to it at once. */
        atomic_store_explicit(&main_worker, worker, memory_order_release);
    }
    pthread_mutex_unlock(&making_default);
    return worker;
}

/* ---- which one a thread has */

struct call_rcu_data *CALL(get_default_call_rcu_data)(void) {
    return default_worker();
}

/* If not, call_rcu needs no section: free_all_cpu_call_rcu_data has none to take away. */
bool has_worker_of_a_cpu(void) {
    return atomic_load_explicit(&of_cpus, memory_order_acquire) != 0;
}

/* The table is whole once it is found (acquire). One that is found in it stays, for a caller in a
 * section. */
struct call_rcu_data *CALL(get_cpu_call_rcu_data)(int cpu) {
    worker_of_cpu *each = atomic_load_explicit(&of_cpus, memory_order_acquire);
    return each && cpu >= 0 && cpu < machine_cpus ? atomic_load(&each[cpu]) : 0;
}

/* The thread's own word, which no other thread reads: it needs no order. */
struct call_rcu_data *CALL(get_thread_call_rcu_data)(void) {
    return self.worker;
}

/* With no lock: no other thread looks at it. */
void CALL(set_thread_call_rcu_data)(struct call_rcu_data *it) {
    self.worker = it;
}

/* The thread's own one, else that of the processor that it runs on, else the default one. The
 * thread may move to another processor meanwhile: the worker serves it as well. */
struct call_rcu_data *CALL(get_call_rcu_data)(void) {
    struct call_rcu_data *worker = self.worker;
    if (!worker && unlikely(has_worker_of_a_cpu()))
        worker = CALL(get_cpu_call_rcu_data)(sched_getcpu());
    return worker ? worker : default_worker();
}

pthread_t CALL(get_call_rcu_thread)(struct call_rcu_data *it) {
    return it->thread;
}

/* ---- one for each processor of the machine */

/* Once they are made they stay. Of two threads that make them one is first, by the exchange. */
static worker_of_cpu *make_of_cpus(void) {
    worker_of_cpu *each = atomic_load(&of_cpus), *other = 0;
    if (each) return each;
    machine_cpus = sysconf(_SC_NPROCESSORS_CONF); /* before the exchange, by which it is seen */
    each = calloc((size_t)machine_cpus, sizeof *each);
    if (!each || atomic_compare_exchange_strong(&of_cpus, &other, each)) return each;
    free(each); /* no thread has seen it: the other one's is the table */
    return other;
}

/* By the lock, so that of two workers for one processor one is refused. */
int CALL(set_cpu_call_rcu_data)(int cpu, struct call_rcu_data *it) {
    int fault = 0;
    worker_of_cpu *each = make_of_cpus();
    hold();
    if (!each) fault = ENOMEM;
    else if (cpu < 0 || cpu >= machine_cpus) fault = EINVAL;
    else if (it && atomic_load(&each[cpu])) fault = EEXIST;
    else atomic_store(&each[cpu], it);
    let_go();
    if (fault) errno = fault;
    return -fault;
}

int CALL(create_all_cpu_call_rcu_data)(unsigned long flags) {
    int cpus = (int)sysconf(_SC_NPROCESSORS_CONF);
    for (int cpu = 0; cpu < cpus; cpu++) {
        if (CALL(get_cpu_call_rcu_data)(cpu)) continue;
        struct call_rcu_data *worker = CALL(create_call_rcu_data)(flags, cpu);
        int fault = CALL(set_cpu_call_rcu_data)(cpu, worker);
        if (!fault) continue;
        pthread_t thread = worker->thread; /* before the worker's memory goes */
        CALL(call_rcu_data_free)(worker); /* another thread was first, or no memory is left */
        pthread_join(thread, 0); /* it has said that it is over, and may not have returned yet */
        if (fault == -EEXIST) continue;
        errno = -fault;
        return fault;
    }
    return 0;
}

/* ---- the end of one */

/* Who frees a worker sleeps on it under the lock: one caller at a time, by `visits`. */
static pthread_cond_t worker_over = PTHREAD_COND_INITIALIZER;

/* In the child of a fork, where their threads are gone, and those that waited for an end. */
void forget_workers_of_cpus(void) {
    worker_of_cpu *each = atomic_load(&of_cpus);
    for (long cpu = 0; each && cpu < machine_cpus; cpu++) atomic_store(&each[cpu], 0);
    pthread_cond_init(&worker_over, 0);
}

/* The worker's thread says so, and does nothing more with the worker. */
void tell_over(struct call_rcu_data *worker) {
    hold(); /* else the signal may come between the look of stop() and its sleep */
    worker->is_over = true;
    pthread_cond_signal(&worker_over);
    let_go();
}

/* The thread is not joined: as in liburcu 0.13 that is left to the program. */
static void stop(struct call_rcu_data *worker) {
    hold(); /* the worker looks with the lock held before each sleep */
    worker->stop = true;
    pthread_cond_signal(&worker->work);
    /* Its thread writes in it until then, and the caller frees it. The grace period that the worker
     * waits for goes on: the sleep lets the lock go. */
    while (!worker->is_over) sleep_on(&worker_over);
    let_go();
}

/* With `visits` held: no barrier and no fork has it in hand. */
static void take_out(struct call_rcu_data *worker) {
    struct call_rcu_data **at = &workers;
    hold(); /* create_call_rcu_data and counters have the lock alone, and not `visits` */
    while (*at != worker) at = &(*at)->next;
    *at = worker->next;
    let_go();
}

/* The callbacks that it did not run go to the default worker, in their order. */
void CALL(call_rcu_data_free)(struct call_rcu_data *it) {
    if (!it || it == default_worker()) return; /* that one takes over what the others leave */
    bool was_online = leave("call_rcu_data_free"); /* the worker may wait for a grace period */
    pthread_mutex_lock(&visits); /* else a barrier may push its marker when the worker is gone */
    stop(it);
    take_out(it);
    /* Before `visits` is let go: a barrier that comes then finds them with the default worker. */
    push_all(default_worker(), atomic_load(&it->last));
    pthread_mutex_unlock(&visits);
    pthread_cond_destroy(&it->work); /* nobody signals it: the worker is in no list any more */
    free(it);
    restore_online(was_online);
}

void CALL(free_all_cpu_call_rcu_data)(void) {
    worker_of_cpu *each = atomic_load(&of_cpus);
    if (!each) return;
    struct call_rcu_data **old = calloc((size_t)machine_cpus, sizeof *old);
    if (!old) return;
    /* An exchange: one that another thread sets meanwhile is taken here, or stays in the table. */
    for (long cpu = 0; cpu < machine_cpus; cpu++) old[cpu] = atomic_exchange(&each[cpu], 0);
    CALL(synchronize_rcu)(); /* who found one in a section is done with it */
    for (long cpu = 0; cpu < machine_cpus; cpu++) CALL(call_rcu_data_free)(old[cpu]);
    free(old);
}
