/* The polls of liburcu 0.14. The default worker makes the grace periods that are asked for.
 *
 * They rest on grace_periods.c: a grace period that begins after the asking has the number that the
 * state has, or a greater one. */
#include "marks.h"
#include "workers.h"

struct urcu_gp_poll_state CALL(start_poll_synchronize_rcu)(void) {
    struct urcu_gp_poll_state state;
    struct call_rcu_data *worker = default_worker();
    hold(); /* the worker looks at what is asked for under the lock, before each sleep */
    state.grace_period_id = all.begun + 1; /* one that runs may have begun before the unlink */
    if (all.asked_for < all.begun + 1) all.asked_for = all.begun + 1;
    worker->hurried = true;
    pthread_cond_signal(&worker->work);
    let_go();
    return state;
}

/* With no lock (acquire): what follows a poll that is true comes after each section that was open
 * when the state was taken. */
bool CALL(poll_state_synchronize_rcu)(struct urcu_gp_poll_state state) {
    uint64_t ended = atomic_load_explicit(&all.ended, memory_order_acquire);
    bool has_ended = ended >= state.grace_period_id;
    if (has_ended) mark_acquire();
    return has_ended;
}
