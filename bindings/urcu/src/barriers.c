/* rcu_barrier: a marker behind the callbacks of each worker. It waits until all markers have run.
 *
 * It rests on callbacks.c: a worker runs its callbacks in the order in which they were pushed. */
#include "workers.h"

/* Under the lock. */
static pthread_cond_t barrier_over = PTHREAD_COND_INITIALIZER;
static unsigned markers_left;

/* By a worker, once it has run all callbacks that were pushed before the marker. */
static void pass_marker(struct rcu_head *head) {
    (void)head;
    hold();
    /* Under the lock, so that the barrier sleeps already, or sees that none is left. */
    if (--markers_left == 0) pthread_cond_broadcast(&barrier_over);
    let_go();
}

/* In the child of a fork without liburcu's handlers: a barrier of another thread left some. */
void forget_markers(void) {
    markers_left = 0;
    pthread_cond_init(&barrier_over, 0);
}

/* A worker with a marker does not rest before it runs it. */
static void mark(struct call_rcu_data *worker) {
    worker->marker.func = pass_marker;
    push(worker, &worker->marker); /* with no lock held: the first push takes it */
    hold(); /* it looks at this under the lock, before each sleep */
    worker->hurried = true;
    pthread_cond_signal(&worker->work);
    let_go();
}

/* A worker runs its marker only after the callback that it is in, so that callback would wait for
 * good. */
static void look_for_own_worker(void) {
    hold(); /* so that the list stays, and no worker in it goes */
    for (struct call_rcu_data *it = workers; it; it = it->next)
        if (pthread_equal(it->thread, pthread_self()))
            fail("rcu_barrier", "a callback waits for itself");
    let_go();
}

/* As liburcu's it does not wait in a section, but says so. */
void CALL(barrier)(void) {
    if (is_in_section()) {
        say("rcu_barrier", "the thread is in a section");
        return;
    }
    bool was_online = leave("rcu_barrier"); /* else a grace period would wait for the caller */
    look_for_own_worker();
    pthread_mutex_lock(&visits); /* no worker goes meanwhile, and no other barrier has markers */
    hold();
    struct call_rcu_data *first = workers; /* one that is made later stands before it */
    for (struct call_rcu_data *it = first; it; it = it->next) markers_left++;
    let_go(); /* all markers are counted before the first one can run */
    for (struct call_rcu_data *it = first; it; it = it->next) mark(it);
    hold(); /* pass_marker has it too: no wake-up comes between the look and the sleep */
    while (markers_left) sleep_on(&barrier_over);
    let_go();
    pthread_mutex_unlock(&visits);
    restore_online(was_online);
}
