/* What a flavour tells: who holds a grace period up, and how much it did. It adds nothing to the
 * order of threads: it reads, under the lock, what others write there. The depths of sections are
 * read beside their threads, and are what those were at some moment. */
#include "reports.h"
#include "lines.h"
#include "workers.h"
#include <dlfcn.h>
#include <inttypes.h>
#include <stdio.h>

enum { MOST_ROWS = 16, LONGEST_LINE = 400 };

/* Under the lock: the gp_thread reads them before each sleep. */
static unsigned stall_milliseconds = 10000;
static void (*stall_report)(const struct urcu_stall *stall, void *context);
static void *stall_context;

/* Under the lock: of the grace period that runs, and of those that ended. */
static struct timespec begun_at;
static unsigned reported; /* how often in this grace period */
static uint64_t last[URCU_LAST_ROUNDS];
static unsigned next_of_last;

/* By the monotonic clock, as begun_at is. */
static uint64_t microseconds_since(const struct timespec *then) {
    struct timespec now = after(0);
    return (uint64_t)((now.tv_sec - then->tv_sec) * 1000000 + (now.tv_nsec - then->tv_nsec) / 1000);
}

/* With the lock held, by the gp_thread. One that waits for no reader reads no clock. */
void time_grace_period(bool waits) {
    reported = 0;
    if (waits) begun_at = after(0);
}

/* With the lock held, as counters read all of these. */
void time_end_of_grace_period(bool waited) {
    last[next_of_last++ % URCU_LAST_ROUNDS] = waited ? microseconds_since(&begun_at) : 0;
}

/* ---- stalls */

void CALL(on_stall)(unsigned milliseconds,
                    void (*report)(const struct urcu_stall *stall, void *context), void *context) {
    hold(); /* so that the handler and its context change together */
    stall_milliseconds = milliseconds;
    stall_report = report;
    stall_context = context;
    let_go();
}

/* With the lock let go: dladdr(3) takes the loader's, which a thread may hold that registers in a
 * constructor. */
static void say_stall(const struct urcu_stall *it) {
    char how[60] = "which passes no quiescent state", line[LONGEST_LINE];
    Dl_info found = {0};
    dladdr(it->registered_at, &found);
    const char *function = found.dli_sname ? found.dli_sname : "a function";
    const char *file = found.dli_fname ? found.dli_fname : "an unknown file";
    if (it->depth) snprintf(how, sizeof how, "which is in a section, %lu deep", it->depth);
    snprintf(line, sizeof line,
             "urcu over rcu: %s: a grace period waits since %.1f s for thread %d, %s "
             "(registered at %p, in %s of %s)",
             it->flavour, (double)it->milliseconds / 1000, it->thread, how, it->registered_at,
             function, file);
    tell(line, LOG_WARNING);
}

/* With the lock held: no reader that is awaited unregisters meanwhile, so its row is its own. */
static unsigned find_stalls(struct engine *engine, struct urcu_stall *rows) {
    unsigned found = 0;
    for (uint32_t cpu = 0; cpu < engine->cpus && found < MOST_ROWS; cpu++) {
        struct slot *slot = &engine->slots[cpu];
        if (!rcu_awaits(&engine->rcu, cpu)) continue;
        rows[found++] = (struct urcu_stall){
            .flavour = FLAVOUR,
            .thread = slot->thread,
            /* Relaxed: for the reader of a line, and nothing is reclaimed by it. */
            .depth = atomic_load_explicit(&slot->depth, memory_order_relaxed),
            .registered_at = slot->registered_at,
            .milliseconds = microseconds_since(&begun_at) / 1000,
        };
    }
    return found;
}

/* The lock is let go meanwhile: the handler is the program's, and may take long. No other thread
 * makes a grace period then, as all.making says that this one does. */
static void report(struct engine *engine) {
    struct urcu_stall rows[MOST_ROWS];
    unsigned found = find_stalls(engine, rows);
    /* Copied under the lock: a new handler may be set while the old one runs. */
    void (*to)(const struct urcu_stall *, void *) = stall_report;
    void *context = stall_context;
    reported++;
    let_go();
    for (unsigned at = 0; at < found; at++)
        if (to) to(&rows[at], context);
        else say_stall(&rows[at]);
    hold(); /* the gp_thread looks at the readers anew: some may have got quiet meanwhile */
}

/* A reader that gets quiet signals under the lock: so it finds the gp_thread asleep, or the look
 * before this sleep has seen it. */
void sleep_or_report(struct engine *engine) {
    struct timespec until = begun_at;
    if (!stall_milliseconds) {
        sleep_on(&all.quiet); /* the reader that gets quiet ends it (wake_gp_thread) */
        return;
    }
    /* From the begin on, and not from now: a sleep that ends early makes no report later. */
    uint64_t milliseconds = (uint64_t)stall_milliseconds * (reported + 1);
    until.tv_sec += (time_t)(milliseconds / 1000);
    until.tv_nsec += (long)(milliseconds % 1000) * 1000000;
    if (until.tv_nsec >= 1000000000) {
        until.tv_sec++;
        until.tv_nsec -= 1000000000;
    }
    /* Not by a wake-up: the readers that are awaited still hold the grace period up. */
    if (!sleep_on_until(&all.quiet, &until)) report(engine);
}

/* ---- counters */

/* A worker takes its list under the lock: so none of it goes while it is counted. */
static void count_callbacks(struct call_rcu_data *worker, struct urcu_counters *counters) {
    /* Beside the worker, which counts them after it let the lock go: at some moment it was so. */
    unsigned long running = atomic_load(&worker->running), waiting = running;
    /* Acquire: the heads are whole once the list shows them (the release of push). */
    for (struct rcu_head *it = atomic_load_explicit(&worker->last, memory_order_acquire); it;
         it = it->next)
        waiting++;
    counters->callbacks_waiting += waiting;
    if (!waiting) return;
    uint64_t age = microseconds_since(running ? &worker->running_since : &worker->since) / 1000;
    if (age > counters->oldest_waits) counters->oldest_waits = age;
}

/* One look with the lock held, so that the figures are of one moment. */
void CALL(counters)(struct urcu_counters *counters) {
    *counters = (struct urcu_counters){0};
    hold();
    counters->grace_periods = atomic_load(&all.ended);
    counters->callbacks_run = callbacks_run;
    for (struct engine *it = all.engines; it; it = it->next) counters->threads += it->taken;
    for (struct call_rcu_data *it = workers; it; it = it->next) count_callbacks(it, counters);
    for (unsigned back = 0; back < URCU_LAST_ROUNDS && back < next_of_last; back++)
        counters->last[back] = last[(next_of_last - 1 - back) % URCU_LAST_ROUNDS];
    let_go();
}

/* With no lock held while the line is written. */
int CALL(counters_text)(char *text, size_t room) {
    struct urcu_counters now;
    CALL(counters)(&now);
    return snprintf(text, room,
                    "%s: %" PRIu64 " grace periods, %" PRIu64 " threads, %" PRIu64
                    " callbacks run, %" PRIu64 " waiting, the oldest %" PRIu64
                    " ms; the last grace period took %" PRIu64 " us",
                    FLAVOUR, now.grace_periods, now.threads, now.callbacks_run,
                    now.callbacks_waiting, now.oldest_waits, now.last[0]);
}
