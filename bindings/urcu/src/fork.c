/* fork. The child has one thread: it opens engines of its own, in room of its own, and takes a
 * slot there if it had one. So it does not matter in the midst of what the other threads were. By
 * liburcu's three handlers the workers pause, none is added meanwhile, and the default worker goes
 * on in the child with all callbacks that waited. Without them the callbacks that waited, and the
 * deferred calls, are the parent's alone: a worker may have been in the midst of any. The child
 * begins with none, and its first callback makes a worker anew.
 *
 * Who forks does not hold the lock: the C library takes the locks of malloc then, of which one may
 * be held by a thread whose signal handler waits for the layer's.
 *
 * include/rcu.h says: no call is made "in the forked child of a process with threads". So the
 * engines of the parent are left as they are there, and no call is made on them. */
#include "workers.h"
#include "deferral.h"
#include <stdlib.h>
#include <unistd.h>

static struct urcu_atfork *table; /* of liburcu-cds: its resizable hash table has a worker too */
static unsigned tables;
static pid_t owner; /* the child that has all of its own, where this is one */

/* ---- what each fork does */

/* The parent's workers are threads that the child does not have. What they hold stays as it is, as
 * it may be half changed. With no lock: the child has one thread. */
static void start_without_workers(void) {
    pthread_mutex_init(&visits, 0);
    pthread_mutex_init(&making_default, 0);
    workers = 0;
    atomic_store(&main_worker, 0);
    self.worker = 0;
    forget_workers_of_cpus();
    forget_markers();
    renew_deferral();
    forget_deferred_calls();
}

static void renew(bool keeps_workers) {
    struct slot *old = self.slot;
    /* Threads that the child does not have may hold the lock, or sleep on a condition. */
    pthread_mutex_init(&all.lock, 0);
    make_condition(&all.quiet);
    pthread_cond_init(&all.grace_period_over, 0);
    pthread_cond_init(&all.paused, 0);
    pthread_cond_init(&all.resumed, 0);
    all.making = all.pausing = false;
    all.engines = 0;
    all.used = 0;
    atomic_store(&all.beside, 0); /* sections of threads that the child does not have */
    atomic_store(&self.busy, 0);
    self.thread = 0;
    self.slot = 0;
    show_slot();
    renew_room(); /* before the first engine of the child takes some */
    if (BY_WORD) set_up_readers(); /* membarrier(2) registers a process, and the child is another */
    if (old) { /* a section that is open goes on, in an engine of the child's own */
        take_slot(old->registered_at);
        stay_as_in(old);
    }
    if (!keeps_workers) start_without_workers();
    owner = getpid();
}

/* The child of a signal handler that forked in the midst of a call may exec, and no more. Liburcu's
 * handler may have run before this one, or is to come. */
static void in_any_child(void) {
    if (!is_busy() && !self.beside && owner != getpid()) renew(self.forks != 0);
}

void set_up_forks(void) {
    if (pthread_atfork(0, 0, in_any_child))
        fail("register", "no handler of forks is left");
}

/* ---- liburcu's handlers */

/* A worker that pauses holds no lock and is in no change of a list, so the child has it whole. */
static void pause_workers(void) {
    hold();
    all.pausing = true;
    for (struct call_rcu_data *it = workers; it;) {
        if (it->paused) {
            it = it->next;
            continue;
        }
        pthread_cond_signal(&it->work); /* it sleeps or rests; it looks at all.pausing after each */
        sleep_on(&all.paused); /* until one says that it is paused (pause_for_fork) */
        it = workers; /* one that was made meanwhile stands before it */
    }
    let_go();
}

/* The locks in the order in which all take them: those of workers, and within them the layer's.
 * They are held over the fork, so that the child finds no list of workers half changed. */
void CALL(call_rcu_before_fork)(void) {
    if (self.forks++) return; /* a program may call it, and a library that registered it too */
    self.was_online = leave("call_rcu_before_fork");
    set_up();
    if (table) table->before_fork(table->priv); /* first, as in liburcu: its worker may defer */
    pthread_mutex_lock(&visits);
    pthread_mutex_lock(&making_default);
    pause_workers();
}

void CALL(call_rcu_after_fork_parent)(void) {
    if (--self.forks) return;
    hold(); /* the workers look at it under the lock, behind each sleep */
    all.pausing = false;
    pthread_cond_broadcast(&all.resumed);
    let_go();
    pthread_mutex_unlock(&making_default);
    pthread_mutex_unlock(&visits);
    if (table) table->after_fork_parent(table->priv);
    restore_online(self.was_online);
}

/* The others' threads are gone. Their callbacks go to the default worker, whose thread is made
 * anew. */
static void go_on_with_default_worker(void) {
    struct call_rcu_data *gone = workers, *worker = atomic_load(&main_worker);
    if (worker) make_condition(&worker->work); /* its thread slept on it in the parent */
    forget_workers_of_cpus();
    self.worker = 0;
    workers = worker;
    for (struct call_rcu_data *next, *it = gone; it; it = next) {
        next = it->next;
        if (it == worker) continue;
        push_all(default_worker(), atomic_load(&it->last));
        free(it);
    }
    if (!worker) return; /* none was needed yet: the first callback makes one */
    worker->next = 0;
    worker->paused = false;
    start_worker(worker);
}

void CALL(call_rcu_after_fork_child)(void) {
    if (--self.forks) return;
    if (owner != getpid()) renew(true);
    pthread_mutex_init(&visits, 0); /* the parent's thread holds them, and lets them go there */
    pthread_mutex_init(&making_default, 0);
    renew_deferral();
    go_on_with_default_worker();
    if (table) table->after_fork_child(table->priv);
    restore_online(self.was_online);
}

void CALL(before_fork)(void) {
    CALL(call_rcu_before_fork)();
}

void CALL(after_fork_parent)(void) {
    CALL(call_rcu_after_fork_parent)();
}

void CALL(after_fork_child)(void) {
    CALL(call_rcu_after_fork_child)();
}

void CALL(register_rculfhash_atfork)(struct urcu_atfork *it) {
    hold(); /* several libraries of a process register it; the first one's serves all */
    if (tables++ == 0) table = it;
    let_go();
}

void CALL(unregister_rculfhash_atfork)(struct urcu_atfork *it) {
    (void)it;
    hold(); /* as above: the last one takes it away */
    if (--tables == 0) table = 0;
    let_go();
}
