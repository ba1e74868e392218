/* defer_rcu: each thread has a ring of calls that it deferred. A ring with calls in it has a
 * callback queued, by which a worker makes those calls that the callback's grace period came after.
 * Where the ring is full, its thread waits for a grace period and makes them itself.
 *
 * It rests on callbacks.c and grace_periods.c. It adds: that no call is left behind. A thread adds
 * one, and then looks whether the callback is queued; the callback says that it is queued no more,
 * and then looks whether one was added. All four steps are sequentially consistent, so one of the
 * two sees the other (tests/model.py). */
#include "deferral.h"
#include "marks.h"
#include "workers.h"
#include <errno.h>
#include <stdlib.h>

enum { RING = 1024 }; /* calls that wait; who adds one more waits for a grace period itself */

struct deferred {
    void (*func)(void *p);
    void *p;
};

struct ring {
    struct rcu_head head;
    unsigned long limit;             /* of the callback that is queued: it makes what lies below */
    unsigned long limit_of_barrier;
    _Alignas(64) atomic_ulong added; /* by its thread */
    _Alignas(64) atomic_ulong made;  /* by who drains */
    atomic_bool queued;
    bool taken;        /* by a thread; under the lock */
    struct ring *next; /* in the list of all */
    struct deferred calls[RING];
};

/* Who makes calls of any ring holds the first. A barrier holds the second, while it waits too. */
static pthread_mutex_t draining = PTHREAD_MUTEX_INITIALIZER;
static pthread_mutex_t barriers = PTHREAD_MUTEX_INITIALIZER;
static struct ring *rings; /* under the lock; none goes */

/* A deferred call may wait for a grace period. So who waits for its end is offline. */
static void start_draining(void) {
    bool was_online = self.online; /* in qsbr; the other flavours have no online state */
    CALL(thread_offline)();
    pthread_mutex_lock(&draining); /* else two threads could make the same call */
    restore_online(was_online);
}

/* What a call needs is copied before its room is given back (release), which the adding thread
 * loads (acquire) before it writes there. It is given back before the call is made, as that may
 * defer. */
static void make_calls(struct ring *ring, unsigned long limit) {
    /* Relaxed: it is stored under `draining` alone. */
    unsigned long at = atomic_load_explicit(&ring->made, memory_order_relaxed);
    for (; (long)(limit - at) > 0; at++) {
        struct deferred it = ring->calls[at % RING];
        atomic_store_explicit(&ring->made, at + 1, memory_order_release);
        it.func(it.p);
    }
}

static void drain(struct rcu_head *head);

/* By who found that it was not queued, or by its callback: one at a time, so `limit` needs no order
 * of its own. It is read before the callback's grace period begins. */
static void queue(struct ring *ring) {
    ring->limit = atomic_load(&ring->added);
    CALL(call_rcu)(&ring->head, drain);
}

static void drain(struct rcu_head *head) {
    struct ring *ring = caa_container_of(head, struct ring, head);
    unsigned long limit = ring->limit; /* until the callback is queued anew nobody sets it */
    start_draining();
    make_calls(ring, limit);
    pthread_mutex_unlock(&draining);
    atomic_store(&ring->queued, false); /* before the last look, as a thread adds before its look */
    /* An exchange: if the adding thread saw the store too, one of the two queues the callback. */
    if (atomic_load(&ring->added) != limit && !atomic_exchange(&ring->queued, true)) queue(ring);
}

/* ---- a thread's own ring. One that a thread left serves the next. */

/* With the lock held: of two threads that come at once each takes another ring. */
static struct ring *find_ring(void) {
    struct ring *ring = rings;
    while (ring && ring->taken) ring = ring->next;
    if (ring) ring->taken = true;
    return ring;
}

static struct ring *add_ring(void) {
    struct ring *ring = aligned_alloc(_Alignof(struct ring), sizeof *ring);
    if (!ring) return 0;
    atomic_init(&ring->added, 0);
    atomic_init(&ring->made, 0);
    atomic_init(&ring->queued, false);
    ring->taken = true; /* before the lock, with the words above: no other thread sees it yet */
    hold(); /* the ring is whole before it is listed: a barrier walks the list with no lock */
    ring->next = rings;
    rings = ring;
    let_go();
    return ring;
}

static SLOW struct ring *take_ring(void) {
    tell_end(); /* at the thread's end the ring is given to the next one */
    hold();
    struct ring *ring = find_ring();
    let_go();
    return self.deferred = ring ? ring : add_ring();
}

/* What is in it still is made by its callback. */
void give_back_ring(void) {
    if (!self.deferred) return;
    hold(); /* `taken` is read by find_ring, which has it too */
    self.deferred->taken = false; /* by the lock the next thread sees what was added */
    self.deferred = 0;
    let_go();
}

/* The limit comes before the grace period: a call that is added later is not covered by it. */
static SLOW void make_all(struct ring *ring) {
    unsigned long limit = atomic_load(&ring->added);
    CALL(synchronize_rcu)();
    start_draining(); /* the ring's callback may be in the midst of its calls */
    make_calls(ring, limit);
    pthread_mutex_unlock(&draining);
}

void CALL(defer_rcu)(void (*func)(void *p), void *p) {
    struct ring *ring = likely(self.deferred) ? self.deferred : take_ring();
    if (unlikely(!ring)) { /* out of memory: the call is made now, and the caller waits for it */
        CALL(synchronize_rcu)();
        func(p);
        return;
    }
    /* Its own count, so relaxed. The other one by acquire: a slot is written only once the call
     * that was there has been copied. */
    unsigned long at = atomic_load_explicit(&ring->added, memory_order_relaxed);
    if (unlikely(at - atomic_load_explicit(&ring->made, memory_order_acquire) == RING))
        make_all(ring);
    mark_release();
    ring->calls[at % RING] = (struct deferred){func, p};
    atomic_store(&ring->added, at + 1); /* after the call's words, and before the look */
    if (unlikely(!atomic_load(&ring->queued)) && !atomic_exchange(&ring->queued, true)) queue(ring);
}

/* ---- the other calls */

int CALL(defer_register_thread)(void) {
    return self.deferred || take_ring() ? 0 : -ENOMEM;
}

void CALL(defer_barrier_thread)(void) {
    if (self.deferred) make_all(self.deferred);
}

void CALL(defer_unregister_thread)(void) {
    CALL(defer_barrier_thread)();
    give_back_ring();
}

/* All limits come before the grace period. A ring that is added meanwhile has no earlier call. */
void CALL(defer_barrier)(void) {
    bool was_online = leave("rcu_defer_barrier");
    pthread_mutex_lock(&barriers); /* the limits are of one barrier until it has made the calls */
    hold(); /* only the head changes: what it leads to stays, and is walked with no lock */
    struct ring *first = rings;
    let_go();
    for (struct ring *it = first; it; it = it->next)
        it->limit_of_barrier = atomic_load(&it->added);
    CALL(synchronize_rcu)();
    start_draining();
    for (struct ring *it = first; it; it = it->next) make_calls(it, it->limit_of_barrier);
    pthread_mutex_unlock(&draining);
    pthread_mutex_unlock(&barriers);
    restore_online(was_online);
}

void CALL(defer_exit)(void) {}

/* In the child of a fork, as threads that are gone may hold them. */
void renew_deferral(void) {
    pthread_mutex_init(&draining, 0);
    pthread_mutex_init(&barriers, 0);
}

/* In the child of a fork without liburcu's handlers: no callback of a ring is queued there, and the
 * rings of the other threads are free. */
void forget_deferred_calls(void) {
    for (struct ring *it = rings; it; it = it->next) { /* with no lock: the child has one thread */
        atomic_store(&it->made, atomic_load(&it->added));
        atomic_store(&it->queued, false);
        it->taken = it == self.deferred;
    }
}
