/* Callbacks: each worker has a list of its own, through the heads. To push one takes neither memory
 * nor a lock but where the list was empty: who pushes the first one wakes the worker. The worker
 * takes all at once, waits for a grace period, and runs them in the order in which they were
 * pushed.
 *
 * It rests on grace_periods.c alone: a grace period that begins after a callback was pushed has
 * ended before it runs. It adds: that each is taken once, by one exchange of the list's word, and
 * that none is left behind: a worker sleeps under the lock, where it found the list empty
 * (tests/model.py). */
#include "marks.h"
#include "workers.h"
#include <sched.h>

static atomic_uint rest_milliseconds = 10; /* an older value makes one rest longer or shorter */
uint64_t callbacks_run;

/* From the next rest on: one that has begun keeps its length. */
void CALL(call_rcu_rest)(unsigned milliseconds) {
    atomic_store(&rest_milliseconds, milliseconds);
}

/* By the lock: the worker sleeps already, or it looks at the list after this. */
static SLOW void wake_worker(struct call_rcu_data *worker) {
    hold();
    clock_gettime(CLOCK_MONOTONIC, &worker->since); /* under the lock, as counters read it */
    pthread_cond_signal(&worker->work);
    let_go();
}

/* The head's words, and the unlink before it, come before the store that lists it (release), which
 * the worker's exchange reads (acquire). Behind a first one nobody wakes: that one's push does. */
void push(struct call_rcu_data *worker, struct rcu_head *head) {
    struct rcu_head *last = atomic_load_explicit(&worker->last, memory_order_relaxed);
    do head->next = last;
    while (!atomic_compare_exchange_weak_explicit(&worker->last, &last, head, memory_order_release,
                                                  memory_order_relaxed));
    if (unlikely(!last)) wake_worker(worker);
}

/* Each head leads to the one that was pushed before it. */
static struct rcu_head *in_order(struct rcu_head *last, unsigned long *count) {
    struct rcu_head *first = 0;
    for (*count = 0; last; ++*count) {
        struct rcu_head *before = last->next;
        last->next = first;
        first = last;
        last = before;
    }
    return first;
}

/* What another worker did not run, in its order. */
void push_all(struct call_rcu_data *worker, struct rcu_head *last) {
    unsigned long count;
    for (struct rcu_head *next, *head = in_order(last, &count); head; head = next) {
        next = head->next;
        push(worker, head);
    }
}

void CALL(call_rcu)(struct rcu_head *head, void (*func)(struct rcu_head *head)) {
    head->func = func;
    mark_release();
    if (likely(!has_worker_of_a_cpu())) {
        push(CALL(get_call_rcu_data)(), head);
        return;
    }
    /* In a section, so that its worker is not taken away (free_all_cpu_call_rcu_data). */
    CALL(read_lock)();
    push(CALL(get_call_rcu_data)(), head);
    CALL(read_unlock)();
}

/* ---- a worker's thread, with the lock held but where callbacks run */

/* An older `ended` makes one grace period too many, and none too few. */
static bool is_asked_for_a_grace_period(struct call_rcu_data *worker) {
    return worker == atomic_load(&main_worker) &&
           all.asked_for > atomic_load_explicit(&all.ended, memory_order_relaxed);
}

/* As liburcu's, a worker lets callbacks gather before it takes them: one grace period serves them
 * all. Who waits for it hurries it, or stops or pauses it, with the lock held: so it looks at all
 * three after each wake. */
static void rest(struct call_rcu_data *worker) {
    unsigned milliseconds = atomic_load_explicit(&rest_milliseconds, memory_order_relaxed);
    struct timespec until;
    if (!milliseconds) return;
    until = after(milliseconds);
    while (!worker->hurried && !worker->stop && !all.pausing)
        if (!sleep_on_until(&worker->work, &until)) break;
}

static void run_all(struct call_rcu_data *worker, struct rcu_head *head) {
    while (head) {
        struct rcu_head *next = head->next; /* the callback may free the head */
        head->func(head);
        CALL(quiescent_state)(); /* in qsbr a long batch holds no grace period up */
        head = next;
    }
    atomic_store(&worker->running, 0); /* behind the last one: who sees 0 sees what they did */
}

/* What was pushed before a barrier's marker has run if the marker is taken alone. So the barrier
 * waits for no grace period: with nothing queued it returns while other threads are in sections. */
static bool is_marker_alone(struct call_rcu_data *worker, struct rcu_head *first) {
    return first == &worker->marker && !first->next;
}

/* The list is taken before the grace period begins. So of each callback that was taken the unlink
 * comes before that begin. The worker is online while callbacks run, which may read, and offline in
 * all waits, so that no grace period waits for it. */
static void run_batch(struct call_rcu_data *worker) {
    struct rcu_head *last = atomic_exchange_explicit(&worker->last, 0, memory_order_acquire);
    unsigned long count;
    worker->hurried = false; /* what hurried it was pushed before this taking */
    worker->running_since = worker->since;
    atomic_store(&worker->running, last != 0); /* under the lock; how many is counted below */
    let_go(); /* call_rcu and grace periods of other threads go on meanwhile */
    struct rcu_head *first = in_order(last, &count);
    atomic_store(&worker->running, count);
    hold();
    if (!is_marker_alone(worker, first)) wait_for_grace_period();
    let_go();
    CALL(thread_online)(); /* with no lock held: a callback may call call_rcu, or wait */
    run_all(worker, first);
    CALL(thread_offline)();
    hold(); /* for the count, and for the loop of work(), which looks for more under it */
    callbacks_run += count;
}

/* With the lock held: who forks knows that the worker is in no change of its list. */
static void pause_for_fork(struct call_rcu_data *worker) {
    worker->paused = true;
    pthread_cond_broadcast(&all.paused); /* who forks looks at every worker again */
    while (all.pausing) sleep_on(&all.resumed); /* the fork is over, or another one has begun */
    worker->paused = false;
}

static void bind_to(int cpu) {
    cpu_set_t set;
    if (cpu < 0 || cpu >= CPU_SETSIZE) return;
    CPU_ZERO(&set);
    CPU_SET(cpu, &set);
    sched_setaffinity(0, sizeof set, &set);
}

/* It looks at the list with the lock held before it sleeps. Who pushes the first callback takes the
 * lock to wake it: so that look sees the callback, or the sleep ends. A fork comes first, as it
 * waits for all workers. */
void *work(void *it) {
    struct call_rcu_data *worker = it;
    bind_to(worker->cpu);
    take_slot((const void *)(uintptr_t)work); /* a report of a stall names this function */
    self.worker = worker; /* what a callback defers comes to the same worker */
    hold();
    while (!worker->stop) {
        bool asked = is_asked_for_a_grace_period(worker);
        if (all.pausing) pause_for_fork(worker);
        else if (asked) run_batch(worker);
        else if (!atomic_load_explicit(&worker->last, memory_order_relaxed))
            sleep_on(&worker->work);
        else {
            rest(worker);
            if (!worker->stop && !all.pausing) run_batch(worker);
        }
    }
    let_go();
    self.worker = 0;
    give_back_slot();
    tell_over(worker); /* the last step: from here on its memory may go */
    return 0;
}
