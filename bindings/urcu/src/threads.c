/* What a process sets up once, what a thread has, and the calls by which it comes and goes. It adds
 * nothing to the order of threads.
 *
 * All is set up before main, so that a signal handler has not to do it: pthread_atfork(3) takes a
 * lock of the C library's, and the key of a thread's end is among the first 32, which take no
 * memory. */
#include "deferral.h"
#include "layer.h"

__thread struct reader self __attribute__((tls_model("initial-exec")));
struct shared all = {
    .lock = PTHREAD_MUTEX_INITIALIZER,
    .grace_period_over = PTHREAD_COND_INITIALIZER,
    .paused = PTHREAD_COND_INITIALIZER,
    .resumed = PTHREAD_COND_INITIALIZER,
};
/* The key tells the layer of a thread's end, as a thread may end without unregistering. */
static pthread_once_t once = PTHREAD_ONCE_INIT;
static pthread_key_t ends;

/* It may register anew, as in the end of another key. In qsbr it goes offline before its slot goes
 * to another thread. */
static void at_end(void *it) {
    (void)it;
    self.has_key = false;
    give_back_ring();
    CALL(thread_offline)();
    give_back_slot();
}

static void set_up_once(void) {
    /* With no lock but that of pthread_once: it comes before all that the flavour does. */
    if (pthread_key_create(&ends, at_end)) fail("register", "no key of a thread is left");
    make_condition(&all.quiet);
    if (BY_WORD) set_up_readers();
    set_up_forks();
}

/* Another constructor may register a thread before this one runs. */
__attribute__((constructor(101))) void set_up(void) {
    set_busy(1); /* a signal handler that comes meanwhile would wait for its own thread */
    pthread_once(&once, set_up_once);
    set_busy(-1u);
}

/* From here on the thread's end is told. */
void tell_end(void) {
    if (likely(self.has_key)) return;
    set_up();
    set_busy(1); /* a handler keeps away: the C library may be in the midst of taking memory */
    if (pthread_setspecific(ends, &self)) fail("register", "out of memory");
    self.has_key = true; /* from here on its end gives the slot back */
    set_busy(-1u);
}

/* Behind a wait, with no lock held: in qsbr the thread is awaited again from here on. */
void restore_online(bool was_online) {
    if (was_online) CALL(thread_online)();
}

void CALL(register_thread)(void) {
    /* Its first section, or that of a signal handler, may have taken one. */
    if (!self.slot) take_slot(__builtin_return_address(0));
    if (BY_STATE) CALL(thread_online)();
}

#ifdef URCU_BP
void CALL(register)(void) {
    CALL(register_thread)();
}

/* As liburcu's, a thread of bp stays registered until its end. */
void CALL(unregister_thread)(void) {
    refuse_in_section("rcu_unregister_thread");
}
#else
void CALL(unregister_thread)(void) {
    leave("rcu_unregister_thread");
    give_back_slot();
}
#endif
