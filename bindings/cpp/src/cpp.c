/* What <rcu> has beyond the layer: a barrier that returns at once if nothing waits, a bound on what
 * waits, and a look for a second layer in the process.
 *
 * It rests on the layer's barriers.c and callbacks.c: a worker takes its list under the lock, and
 * says there that it has evaluations in hand, until they have ended. It adds: that nothing waits if
 * the list is empty then and nothing is in hand (tests/model.py). There is one worker, the default
 * one, as no call of <rcu> makes another. The counts of the bound order nothing. */
#include "workers.h"
#include <time.h>

/* The domain: a class with nothing in it. */
char urcu_cpp_domain;

/* ---- sections */

void urcu_cpp_wake_maker(void) {
    got_quiet(self.slot);
}

_Static_assert(offsetof(struct slot, depth) == 8 && offsetof(struct slot, wake_requested) == 16,
               "urcu_cpp_place of include/rcu");
_Static_assert(offsetof(struct reader, shown) == 0, "urcu_cpp_reader of include/rcu");

/* ---- the barrier */

static unsigned long in_hand(void) {
    struct call_rcu_data *worker = atomic_load(&main_worker);
    return worker ? atomic_load(&worker->running) : 0;
}

static bool nothing_waits(void) {
    struct call_rcu_data *worker = atomic_load(&main_worker);
    hold();
    bool is_empty = !worker || (!atomic_load(&worker->last) && !in_hand());
    let_go();
    return is_empty;
}

void urcu_cpp_wait_for_evaluations(void) {
    if (nothing_waits()) return;
    if (CALL(read_ongoing)()) fail("rcu_barrier", "the thread is in a region");
    CALL(barrier)();
}

/* ---- the bound. A thread looks once in LOOK_EVERY times that it retires, so the counts are near
 * the truth, and a retire costs no more for them. */

enum { LOOK_EVERY = 256 };
static atomic_ulong most_waiting = 1 << 17;
static atomic_uint longest_wait = 100; /* milliseconds */
_Atomic unsigned long urcu_cpp_pressure_waits;

/* Under the lock. */
static uint64_t taken_at_look;
static unsigned long since_taken; /* how many were retired since then */

/* With the lock held: how many the worker has taken since the process began. */
static uint64_t taken(void) {
    return callbacks_run + in_hand();
}

/* What was taken is in hand, and then it is counted (callbacks_run): between the two it is not. */
static bool too_many_wait(unsigned more) {
    if (taken() > taken_at_look) {
        taken_at_look = taken();
        since_taken = 0;
    }
    since_taken += more;
    return in_hand() + since_taken > atomic_load(&most_waiting);
}

/* Until the worker has taken more, or has none in hand. The times are bounds: a deleter may need a
 * lock that the caller has. */
static void wait_for_progress(uint64_t was_taken) {
    const struct timespec one = {.tv_nsec = 1000000};
    bool goes_on = true;
    atomic_fetch_add(&urcu_cpp_pressure_waits, 1);
    for (unsigned times = 0; goes_on && times < atomic_load(&longest_wait); times++) {
        clock_nanosleep(CLOCK_MONOTONIC, 0, &one, 0);
        hold();
        goes_on = taken() <= was_taken && too_many_wait(0);
        let_go();
    }
}

static SLOW void look_at_pressure(void) {
    struct call_rcu_data *worker = default_worker();
    hold();
    bool too_many = too_many_wait(LOOK_EVERY);
    uint64_t was_taken = taken();
    if (too_many) {
        worker->hurried = true;
        pthread_cond_signal(&worker->work);
    }
    let_go();
    if (too_many && !CALL(read_ongoing)() && self.worker != worker) wait_for_progress(was_taken);
}

static __thread unsigned since_look __attribute__((tls_model("initial-exec")));

void urcu_cpp_retire(struct rcu_head *head, void (*run)(struct rcu_head *head)) {
    head->func = run;
    push(default_worker(), head);
    if (likely(++since_look < LOOK_EVERY)) return;
    since_look = 0;
    look_at_pressure();
}

void urcu_cpp_set_pressure(unsigned long most, unsigned milliseconds) {
    atomic_store(&most_waiting, most);
    atomic_store(&longest_wait, milliseconds);
}

/* ---- a second layer. It would have a domain of its own, and evaluate what regions of this one
 * protect. The loader gives all objects of a process the same unique word. */

extern const void *urcu_cpp_first_layer;
__asm__(".pushsection .bss.urcu_cpp_first_layer,\"aw\",@nobits\n"
        ".balign 8\n"
        ".globl urcu_cpp_first_layer\n"
        ".type urcu_cpp_first_layer, %gnu_unique_object\n"
        ".size urcu_cpp_first_layer, 8\n"
        "urcu_cpp_first_layer: .quad 0\n"
        ".popsection");

__attribute__((constructor(101))) static void look_for_a_second_layer(void) {
    if (!urcu_cpp_first_layer) urcu_cpp_first_layer = &all;
    if (urcu_cpp_first_layer != &all)
        fail("rcu", "the process has librcu-cpp twice: link the shared object, not the archive");
}
