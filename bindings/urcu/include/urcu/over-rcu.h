/* What liburcu does not have: reports of a grace period that stalls and of misuse, counters, and a
 * worker that does not rest. Each call belongs to a flavour, as urcu_memb_on_stall. */
#ifndef URCU_OVER_RCU_H
#define URCU_OVER_RCU_H
#include <stddef.h>
#include <stdint.h>
#ifdef __cplusplus
extern "C" {
#endif

/* A thread that holds up a grace period. */
struct urcu_stall {
    const char *flavour;
    int thread;                /* the system's number */
    unsigned long depth;       /* of its sections; in qsbr 0, as sections are not seen there */
    const void *registered_at; /* the code that registered it */
    uint64_t milliseconds;     /* since the grace period began */
};

enum { URCU_LAST_ROUNDS = 8, URCU_MISUSE_LINE = 200 };

struct urcu_counters {
    uint64_t grace_periods;     /* that have ended */
    uint64_t threads;           /* that are registered, and the workers */
    uint64_t callbacks_run;     /* since the flavour was used first */
    uint64_t callbacks_waiting;
    uint64_t oldest_waits;      /* milliseconds; 0 where none waits */
    uint64_t last[URCU_LAST_ROUNDS]; /* microseconds of the last grace periods, the latest first */
};

#define URCU_MORE_CALLS_OF_(f) \
    void urcu_##f##_on_stall(unsigned milliseconds, \
                             void (*report)(const struct urcu_stall *stall, void *context), \
                             void *context); \
    void urcu_##f##_on_misuse(void (*report)(const char *line, void *context), void *context); \
    extern char urcu_##f##_misuse[URCU_MISUSE_LINE]; \
    void urcu_##f##_counters(struct urcu_counters *counters); \
    int urcu_##f##_counters_text(char *text, size_t room); \
    void urcu_##f##_call_rcu_rest(unsigned milliseconds)

/* on_stall: after so many milliseconds (10,000 where it was never called; 0: never), and each time
 * as many have passed again, `report` is called for each thread that is awaited; where it is null,
 * a line goes to standard error. It is called by the thread that makes the grace period, and makes
 * no call of the flavour's.
 *
 * on_misuse: `report` is called with a line that names the misuse, by the thread that it is of, just
 * before that aborts the process. (After a barrier in a section the process goes on.) It may run in a
 * signal handler, and makes no call of the flavour's. Where it is null, the line goes to standard
 * error. misuse: the last such line, empty where there was none; a debugger shows it in a core.
 *
 * Where standard error is closed or is /dev/null, as in a daemon, lines go to the log of syslog(3).
 *
 * counters_text: one line, with no newline, as snprintf writes and counts it. call_rcu_rest: how
 * long a worker lets callbacks gather before it takes them. It is 10, as liburcu's, where it was
 * never called; by 0 it does not rest. */
URCU_MORE_CALLS_OF_(memb);
URCU_MORE_CALLS_OF_(mb);
URCU_MORE_CALLS_OF_(signal);
URCU_MORE_CALLS_OF_(bp);
URCU_MORE_CALLS_OF_(qsbr);
#ifdef __cplusplus
}
#endif
#endif
