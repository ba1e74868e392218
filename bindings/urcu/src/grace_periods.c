/* Grace periods of the layer: each is one of every engine that has a thread. Who waits for one
 * makes it, with the lock, or sleeps while another thread does. The gp_thread looks
 * RCU_LOOKS_BEFORE_WAIT times whether each slot is quiet, the first few times without a pause. Then
 * it stores a request at each slot that is awaited still, looks once more, and sleeps; a thread
 * that gets quiet there wakes it.
 *
 * It rests on these sentences of include/rcu.h: of rcu_drive_for, "called until the cookie is done
 * it makes one grace period", and "it orders what rcu_begin, rcu_collect and rcu_end order"; and of
 * rcu_begin, "of each section one of two holds: all of it comes before what follows the end of this
 * grace period, or it sees what came before this call". It adds: that a thread which takes a slot
 * of an engine that had none took the lock after the grace period began, so its sections see what
 * came before; and the requests. The gp_thread stores a request, and then looks at the slot; a
 * thread gets quiet, and then looks for the request. All four steps are sequentially consistent, or
 * have the fence in all threads between them, so one of the two sees the other (tests/model.py). A
 * request may be one of an earlier grace period: its thread wakes the gp_thread then, which looks,
 * and requests anew. */
#include "marks.h"
#include "reports.h"
#include "seats.h"
#include <sched.h>

enum { LOOKS_AT_ONCE = 4 };

/* Sequentially consistent, as the reader's look in got_quiet: one of the two sees the other. */
static void request_wake(struct slot *slot) {
    atomic_store(&slot->wake_requested, true);
}

/* With the lock held, so the gp_thread sleeps already, or looks at the reader after this. */
static SLOW void wake_gp_thread(struct slot *slot) {
    hold();
    /* Relaxed: the lock orders it before the next request. */
    atomic_store_explicit(&slot->wake_requested, false, memory_order_relaxed);
    if (BY_WORD) pass_if_out(slot); /* before the reader's next section */
    pthread_mutex_unlock(&all.lock);
    pthread_cond_signal(&all.quiet); /* the gp_thread takes the lock as it wakes: free it first */
    set_busy(-1u);
}

/* After the reader got quiet (pairs with request_wake). */
void got_quiet(struct slot *slot) {
    if (unlikely(atomic_load(&slot->wake_requested))) wake_gp_thread(slot);
}

/* ---- a grace period, with the lock held */

/* Begins the grace period, or visits each slot that is awaited and collects; ends it where none
 * is. Returns whether it goes on. */
static bool goes_on(struct engine *engine, void (*visit)(struct slot *slot)) {
    uint32_t cpus[LARGEST_ENGINE], count = 0;
    rcu_turn_t turn;
    if (visit) must("list", rcu_awaited_list(&engine->rcu, cpus, engine->cpus, &count));
    for (uint32_t at = 0; at < count; at++) visit(&engine->slots[cpus[at]]);
    must("drive", rcu_drive_for_unfenced(&engine->rcu, engine->cookie, &turn));
    return turn.awaited != 0;
}

static bool begin(struct engine *engine) {
    depart_free_slots(engine);
    engine->cookie = rcu_take(&engine->rcu);
    return goes_on(engine, 0);
}

static bool still_goes_on(struct engine *engine) {
    return goes_on(engine, BY_WORD ? pass_if_out : 0);
}

static void finish(struct engine *engine) {
    for (unsigned looks = 1; still_goes_on(engine); looks++) {
        if (looks > LOOKS_AT_ONCE) __builtin_ia32_pause(); /* it takes longer than most sections */
        if (looks % RCU_LOOKS_BEFORE_WAIT) continue;
        goes_on(engine, request_wake); /* the request comes before the last look, .. */
        if (BY_WORD) fence_readers();  /* .. also for a reader whose fence is this one */
        if (still_goes_on(engine)) sleep_or_report(engine);
    }
}

/* Begins a grace period of each engine that has a thread. Returns those that wait for one. */
static struct engine *begin_all(void) {
    struct engine *grace_period = 0;
    uint32_t left = all.used;
    for (struct engine *it = all.engines; left; it = it->next) {
        if (!it->taken) continue;
        left--;
        if (!begin(it)) continue;
        it->next_in_grace_period = grace_period;
        grace_period = it;
    }
    return grace_period;
}

static void make_grace_period(void) {
    all.making = true;
    all.begun++;
    struct engine *grace_period = begin_all();
    tell_begun(all.begun); /* a thread that sees it sees the number of the begun grace period */
    time_grace_period(grace_period != 0);
    /* A reader whose word says after this that it is in no section sees, in its next one, what
     * came before. */
    if (BY_WORD && grace_period) fence_readers();
    for (struct engine *it = grace_period; it; it = it->next_in_grace_period) finish(it);
    /* What came before the grace period comes before the look at the sections beside (pairs with
     * the fence of open_beside). A handler's section is short, so the gp_thread does not sleep. */
    rcu_fence();
    while (atomic_load(&all.beside)) sched_yield();
    atomic_store_explicit(&all.ended, all.begun, memory_order_release); /* for polls: no lock */
    time_end_of_grace_period(grace_period != 0);
    all.making = false; /* under the lock: each thread that sleeps for it looks again */
    pthread_cond_broadcast(&all.grace_period_over);
}

/* With the lock held, until a grace period has ended that began after now. The thread's own seat is
 * idle meanwhile: if no other reader is awaited, no fence in all threads is made. Relaxed: `ended`
 * is stored under the lock. */
void wait_for_grace_period(void) {
    uint64_t wanted = all.begun + 1; /* one that runs may have begun before the caller's unlink */
    if (BY_WORD && self.slot) close_seat(self.slot);
    while (atomic_load_explicit(&all.ended, memory_order_relaxed) < wanted) {
        if (all.making) sleep_on(&all.grace_period_over);
        else make_grace_period();
    }
    if (BY_WORD && self.slot) open_seat(self.slot);
    mark_acquire();
}

void CALL(synchronize_rcu)(void) {
    bool was_online = leave("synchronize_rcu");
    hold(); /* one thread makes a grace period; the others sleep for it */
    wait_for_grace_period();
    let_go();
    restore_online(was_online);
}
