/* What stops the process, and the conditions that threads sleep on. No cancellation takes effect in
 * a sleep, as the lock is held behind it. */
#include "layer.h"
#include "lines.h"
#include <errno.h>
#include <stdio.h>
#include <stdlib.h>

char CALL(misuse)[URCU_MISUSE_LINE];
static atomic_bool writing; /* a thread writes the line of misuse */
static void (*_Atomic misuse_report)(const char *line, void *context);
static void *_Atomic misuse_context;

/* The context comes first: a thread that finds the report finds its context. */
void CALL(on_misuse)(void (*report)(const char *line, void *context), void *context) {
    atomic_store(&misuse_context, context); /* seq_cst, as the next: in this order for all */
    atomic_store(&misuse_report, report);
}

/* A debugger shows the line, in a core too. Of two threads at once the first one's is kept. */
static void keep(const char *line) {
    if (atomic_exchange(&writing, true)) return; /* a signal handler cannot wait for its thread */
    snprintf(CALL(misuse), sizeof CALL(misuse), "%s", line);
    atomic_store(&writing, false); /* release: the next line is written after this one */
}

/* Neither by stderr nor by syslog(3): a signal handler may come in the midst of a call on their
 * buffers, and of malloc. */
void say(const char *call, const char *why) {
    char line[URCU_MISUSE_LINE];
    void (*report)(const char *, void *) = atomic_load(&misuse_report);
    snprintf(line, sizeof line, "urcu over rcu: %s: %s: %s", FLAVOUR, call, why);
    keep(line);
    if (report) report(line, atomic_load(&misuse_context));
    else tell(line, LOG_CRIT); /* with no lock: misuse may be found while the lock is held */
}

/* By abort(3), which leaves a core: a debugger shows the line in it. */
void fail(const char *call, const char *why) {
    say(call, why);
    abort();
}

/* The engine refused a call, which the layer's own order of calls should make impossible. */
void fail_by(const char *call, uint32_t fault) {
    fail(call, rcu_fault_text(fault));
}

/* ---- conditions, with the lock held */

/* By the monotonic clock: who sets the time ends no sleep. */
void make_condition(pthread_cond_t *condition) {
    pthread_condattr_t attributes;
    pthread_condattr_init(&attributes);
    pthread_condattr_setclock(&attributes, CLOCK_MONOTONIC); /* as after() reads it */
    pthread_cond_init(condition, &attributes);
    pthread_condattr_destroy(&attributes);
}

/* A thread that was cancelled in the wait would end with the lock held, and each grace period would
 * wait for it. Callers look again behind the sleep, as it may end with no wake-up. */
void sleep_on(pthread_cond_t *condition) {
    int was;
    pthread_setcancelstate(PTHREAD_CANCEL_DISABLE, &was);
    pthread_cond_wait(condition, &all.lock);
    pthread_setcancelstate(was, &was);
}

/* Whether it was woken before the time. The condition is of make_condition's. */
bool sleep_on_until(pthread_cond_t *condition, const struct timespec *until) {
    int was, answer;
    pthread_setcancelstate(PTHREAD_CANCEL_DISABLE, &was);
    answer = pthread_cond_timedwait(condition, &all.lock, until);
    pthread_setcancelstate(was, &was);
    return answer != ETIMEDOUT; /* else for good or by chance: the caller looks what it slept for */
}

/* The time by which a sleep ends: absolute, so that a sleep that goes on is not longer. */
struct timespec after(unsigned milliseconds) {
    struct timespec time;
    clock_gettime(CLOCK_MONOTONIC, &time);
    time.tv_sec += milliseconds / 1000;
    time.tv_nsec += (long)(milliseconds % 1000) * 1000000;
    if (time.tv_nsec >= 1000000000) {
        time.tv_sec++;
        time.tv_nsec -= 1000000000;
    }
    return time;
}
