/* What comes before what: a litmus test for each sentence of docs/C.md. In each round three threads
 * act at one time, and then the driver judges what they saw. Use: litmus [SECONDS], for each test.
 * Built with -DUNFENCED a test goes without the order that it is about (the header's fences, or the
 * order of two steps), and sooner or later is wrong. */
#define _GNU_SOURCE
#include "rcu.h"
#include <inttypes.h>
#include <pthread.h>
#include <sched.h>
#include <stdatomic.h>
#include <stdio.h>
#include <stdlib.h>
#include <time.h>

#ifdef UNFENCED
#define rcu_end rcu_end_unfenced
#define rcu_turn rcu_turn_unfenced
#define rcu_arrive rcu_arrive_unfenced
#define rcu_seat_quiesce rcu_seat_quiesce_unfenced
#define rcu_seat_wake rcu_seat_wake_unfenced
#define rcu_seat_pin rcu_seat_pin_unfenced
#define rcu_seat_take rcu_seat_take_unfenced
#define rcu_seat_poll rcu_seat_poll_unfenced
enum { IN_ORDER = 0 };
#else
enum { IN_ORDER = 1 };
#endif

/* The driver, an updater or waiter whose processor is offline, and a reader. */
enum { DRIVER, UPDATER, READER, THREADS };

/* The steps of a round, each between two meetings of all threads. */
enum { PREPARE, READY, ACT, JUDGE, LEAVE, STEPS };

/* How long a thread waits before it yields; how many cache lines a round stores to; nanoseconds
 * before its steps; turns of waiting; and the rounds that an engine is good for. */
enum { SPINS = 2000, COLD = 40, LINE = 128, LEAD = 3000 };
enum { JITTER = 64, MOST_SHIFT = 4000, MOST_ROUNDS = 900000 };

static rcu_t rcu;
static pthread_mutex_t lock = PTHREAD_MUTEX_INITIALIZER;
static rcu_seat_t seats[THREADS];

/* What the threads share in a round, each on lines of its own. */
static struct {
    _Alignas(LINE) atomic_ulong pointer; /* what readers follow: the round of its latest store */
    _Alignas(LINE) atomic_ulong want;    /* that a waiter wants to be woken */
    _Alignas(LINE) atomic_ulong processed;
    _Alignas(LINE) atomic_ulong node[2];
    _Alignas(LINE) atomic_bool finished;
} shared;

/* The round, and what was found in it: written in one step, read in a later one. */
static unsigned long now;
static uint64_t cookie;
static bool done;
static unsigned long seen;
static bool over;

static void must(const char *call, uint32_t fault) {
    if (fault) {
        printf("%s: fault %" PRIu32 "\n", call, fault);
        exit(1);
    }
}

static void turn_round(unsigned *spins) {
    if (++*spins > SPINS) sched_yield();
}

static unsigned long load(atomic_ulong *word) {
    return atomic_load_explicit(word, memory_order_acquire);
}

static void store(atomic_ulong *word, unsigned long value) {
    atomic_store_explicit(word, value, memory_order_release);
}

static uint64_t nanoseconds(void) {
    struct timespec at;
    clock_gettime(CLOCK_MONOTONIC, &at);
    return (uint64_t)at.tv_sec * 1000000000 + (uint64_t)at.tv_nsec;
}

/* Each thread has a processor of its own, where there are enough. */
static void settle(unsigned thread) {
    static cpu_set_t all;
    cpu_set_t own;
    if (thread == DRIVER && sched_getaffinity(0, sizeof all, &all)) CPU_ZERO(&all);
    if (CPU_COUNT(&all) == 0) return;
    for (unsigned cpu = 0, left = thread % (unsigned)CPU_COUNT(&all);; cpu++) {
        if (!CPU_ISSET(cpu, &all) || left-- > 0) continue;
        CPU_ZERO(&own);
        CPU_SET(cpu, &own);
        sched_setaffinity(0, sizeof own, &own);
        return;
    }
}

/* All threads meet, and go on. */
static void meet(void) {
    static _Alignas(LINE) atomic_uint met, meeting;
    unsigned here = atomic_load(&meeting), spins = 0;
    if (atomic_fetch_add(&met, 1) == THREADS - 1) {
        atomic_store(&met, 0);
        atomic_store(&meeting, here + 1);
    } else {
        while (atomic_load(&meeting) == here) turn_round(&spins);
    }
}

static unsigned drawn(unsigned below) {
    static _Thread_local uint64_t state;
    if (!state) state = (uint64_t)(uintptr_t)&state | 1;
    state ^= state << 13;
    state ^= state >> 7;
    state ^= state << 17;
    return (unsigned)(state >> 20) % below;
}

static void idle(long turns) {
    for (volatile long left = turns; left > 0;) left = left - 1;
}

/* By how many turns the driver waits longer before its step than the thread that looks at the
 * number. It follows what that thread found, so that the two steps go on to meet. */
static long shift;
static bool looked_first;

/* When the threads begin their steps, by the clock, and whether one was late for that. */
static uint64_t start;
static atomic_bool late;

static void delay_driver(void) {
    idle((shift > 0 ? shift : 0) + (long)drawn(JITTER));
}

static void delay_other(void) {
    idle((shift < 0 ? -shift : 0) + (long)drawn(JITTER));
}

static void follow(void) {
    if (atomic_load(&late)) return;
    if (looked_first && shift > -MOST_SHIFT) shift -= 4;
    if (!looked_first && shift < MOST_SHIFT) shift += 4;
}

/* Lines that the driver's processor has. A store to one of them waits for it, and what the same
 * thread stores behind waits too. */
static _Alignas(LINE) volatile unsigned char lines[COLD][LINE];

static void take_lines(void) {
    for (int i = 0; i < COLD; i++) lines[i][0] = 0;
}

static void store_to_lines(void) {
    for (int i = 0; i < COLD; i++) lines[i][0] = 1;
}

/* ---- steps that several tests have */

static void begin(void) {
    uint64_t number;
    uint32_t awaited;
    pthread_mutex_lock(&lock);
    must("begin", rcu_begin(&rcu, &number, &awaited));
    pthread_mutex_unlock(&lock);
}

/* The driver passes a quiescent state, and looks for one of each processor. */
static void collect_all(void) {
    uint64_t number;
    uint32_t found;
    must("quiesce", rcu_seat_quiesce(&seats[DRIVER], &number));
    pthread_mutex_lock(&lock);
    for (uint32_t cpu = 0; cpu < THREADS; cpu++) must("collect", rcu_collect(&rcu, cpu, &found));
    pthread_mutex_unlock(&lock);
}

static void end(void) {
    uint64_t number;
    pthread_mutex_lock(&lock);
    must("end", rcu_end(&rcu, &number));
    pthread_mutex_unlock(&lock);
}

static void reader_quiesces(void) {
    uint64_t number;
    must("quiesce", rcu_seat_quiesce(&seats[READER], &number));
}

static void reader_loads(void) {
    must("enter", rcu_seat_enter(&seats[READER]));
    seen = load(&shared.pointer);
}

static void reader_leaves(void) {
    must("exit", rcu_seat_exit(&seats[READER]));
}

/* Passes quiescent states until one is in the grace period of this round, and then reads. */
static void reader_finds_the_begin(void) {
    unsigned spins = 0;
    uint64_t number = 0;
    while (number % 4 != 1) {
        turn_round(&spins);
        must("quiesce", rcu_seat_quiesce(&seats[READER], &number));
    }
    reader_loads();
}

/* The same by the call that looks first, and does nothing where the number is as it was. */
static uint64_t quiet_at;

static void reader_looks_for_the_begin(void) {
    unsigned spins = 0;
    do {
        turn_round(&spins);
        must("quiesce", rcu_seat_quiesce_since(&seats[READER], &quiet_at));
    } while (quiet_at % 4 != 1);
    reader_loads();
}

/* ---- an unlink before a taking without the lock */

/* The number is in the cache of the processor that looks. */
static void updater_looks(void) {
    rcu_seat_take(&seats[UPDATER]);
}

static void updater_unlinks_and_takes(void) {
    delay_other();
    store_to_lines();
    store(&shared.pointer, now);
    cookie = rcu_seat_take(&seats[UPDATER]);
}

static void driver_begins(void) {
    delay_driver();
    begin();
}

/* Wrong where the reader, in a section, has the old pointer, and the cookie is done. (One that pins
 * before the begin looks is awaited until it leaves.) */
static bool judge_taking(void) {
    collect_all();
    if (rcu_awaited(&rcu)) return false;
    end();
    looked_first = rcu_seat_poll(&seats[DRIVER], cookie);
    return looked_first && seen != now;
}

/* ---- an arrival after the begin, before its first section */

/* What a taking gives while no grace period runs, and 4 more once one does. */
static uint64_t idle_cookie;

static void reader_departs(void) {
    uint64_t moved;
    idle_cookie = rcu_seat_take(&seats[READER]);
    pthread_mutex_lock(&lock);
    must("depart", rcu_depart(&rcu, &seats[READER], &moved));
    pthread_mutex_unlock(&lock);
}

static void wait_for_the_begin(void) {
    for (unsigned spins = 0; rcu_seat_take(&seats[READER]) == idle_cookie;) turn_round(&spins);
}

static void reader_arrives_after_the_begin(void) {
    wait_for_the_begin();
    pthread_mutex_lock(&lock);
    must("arrive", rcu_arrive(&rcu, &seats[READER]));
    pthread_mutex_unlock(&lock);
    reader_loads();
}

/* ---- a wake after the begin, before its first section */

static void reader_gets_idle(void) {
    idle_cookie = rcu_seat_take(&seats[READER]);
    must("idle", rcu_seat_idle(&seats[READER]));
}

static void reader_wakes_after_the_begin(void) {
    uint64_t number;
    wait_for_the_begin();
    must("wake", rcu_seat_wake(&seats[READER], &number));
    reader_loads();
}

/* ---- a pin after the begin */

static void reader_pins_after_the_begin(void) {
    wait_for_the_begin();
    must("pin", rcu_seat_pin(&seats[READER]));
    seen = load(&shared.pointer);
}

static void reader_unpins_and_wakes(void) {
    uint64_t number;
    must("unpin", rcu_seat_unpin(&seats[READER]));
    must("wake", rcu_seat_wake(&seats[READER], &number));
}

static void driver_ends_late(void) {
    for (unsigned spins = 0; rcu_awaited(&rcu); turn_round(&spins)) collect_all();
    if (rcu_running(&rcu)) end();
}

/* ---- a request to be woken before a poll that is not done */

static void driver_takes_and_begins(void) {
    pthread_mutex_lock(&lock);
    cookie = rcu_take(&rcu);
    pthread_mutex_unlock(&lock);
    begin();
}

static void updater_wants_and_polls(void) {
    delay_other();
    store_to_lines();
    store(&shared.want, now);
    done = rcu_seat_poll(&seats[UPDATER], cookie);
}

static void driver_ends(void) {
    collect_all();
    delay_driver();
    end();
}

static void driver_ends_and_looks(void) {
    driver_ends();
    seen = load(&shared.want);
}

/* Wrong where the waiter goes to sleep, and nobody saw that it wants to be woken. */
static bool judge_wake_up(void) {
    looked_first = !done;
    return looked_first && seen != now;
}

/* ---- the same, by the number of a quiescent state */

static void reader_wants_and_quiesces(void) {
    uint64_t number;
    delay_other();
    store_to_lines();
    store(&shared.want, now);
    must("quiesce", rcu_seat_quiesce(&seats[READER], &number));
    done = number >= cookie;
}

/* ---- the same, where not the driver wakes but who finds the cookie done */

static void reader_finds_it_done_and_looks(void) {
    for (unsigned spins = 0; !rcu_seat_poll(&seats[READER], cookie);) turn_round(&spins);
    seen = load(&shared.want);
}

/* ---- an unlink before a queueing */

static void queue(void) {
    uint64_t place;
    pthread_mutex_lock(&lock);
    must("queue", rcu_queue(&rcu, DRIVER, now, &place));
    pthread_mutex_unlock(&lock);
}

static void updater_unlinks_and_queues(void) {
    if (!IN_ORDER) queue();
    idle(drawn(JITTER));
    store(&shared.pointer, now);
    if (IN_ORDER) queue();
}

/* One step of the grace period for callbacks. Returns what the turn did. */
static uint32_t tend_and_turn(void) {
    uint64_t ready, waiting;
    rcu_turn_t turn;
    pthread_mutex_lock(&lock);
    must("tend", rcu_tend(&rcu, DRIVER, &ready, &waiting));
    must("turn", rcu_turn(&rcu, &turn));
    must("tend", rcu_tend(&rcu, DRIVER, &ready, &waiting));
    pthread_mutex_unlock(&lock);
    return turn.what;
}

static void driver_begins_for_a_callback(void) {
    for (unsigned spins = 0; tend_and_turn() != RCU_TURN_BEGUN;) turn_round(&spins);
}

/* Hands out this round's callback. With the lock kept, it is processed under it. */
static void run_and_process(bool kept) {
    uint64_t value, count;
    pthread_mutex_lock(&lock);
    must("run", rcu_run(&rcu, DRIVER, &value, 1, &count));
    if (!kept) pthread_mutex_unlock(&lock);
    if (count != 1 || value != now) must("what was handed out", RCU_WAITING);
    if (!kept) idle(drawn(JITTER));
    atomic_store_explicit(&shared.processed, value, memory_order_relaxed);
    if (kept) pthread_mutex_unlock(&lock);
}

static bool judge_queueing(void) {
    collect_all();
    if (tend_and_turn() != RCU_TURN_ENDED) must("end of a turn", RCU_WAITING);
    run_and_process(true);
    return seen != now;
}

/* ---- an unlink before a begin */

static void driver_unlinks_and_begins(void) {
    if (!IN_ORDER) begin();
    store(&shared.pointer, now);
    if (IN_ORDER) begin();
}

static bool judge_begin(void) {
    collect_all();
    end();
    return seen != now;
}

/* ---- a barrier's end, and the values handed out before */

static void driver_begins_a_barrier(void) {
    uint32_t did;
    queue();
    pthread_mutex_lock(&lock);
    must("barrier", rcu_barrier_begin(&rcu));
    for (uint32_t cpu = 0; cpu < THREADS; cpu++) must("visit", rcu_barrier_visit(&rcu, cpu, &did));
    pthread_mutex_unlock(&lock);
    driver_begins_for_a_callback();
}

static void driver_ends_and_processes(void) {
    collect_all();
    if (tend_and_turn() != RCU_TURN_ENDED) must("end of a turn", RCU_WAITING);
    run_and_process(IN_ORDER);
}

static void reader_tests_the_barrier(void) {
    unsigned spins = 0;
    for (uint64_t left = 1; left > 0; turn_round(&spins)) {
        pthread_mutex_lock(&lock);
        must("test", rcu_barrier_test(&rcu, &left));
        pthread_mutex_unlock(&lock);
    }
    seen = atomic_load_explicit(&shared.processed, memory_order_relaxed);
}

static bool judge_barrier(void) {
    return seen != now;
}

/* ---- a section before what follows a poll that is done */

static void driver_fills_both_nodes(void) {
    for (int i = 0; i < 2; i++) atomic_store_explicit(&shared.node[i], now, memory_order_relaxed);
    atomic_store(&shared.finished, false);
    seen = 0;
}

/* Shows the other node, and once nobody reads the old one, clears that. */
static void updater_replaces(void) {
    unsigned spins = 0;
    unsigned long old = load(&shared.pointer);
    idle(drawn(JITTER));
    store(&shared.pointer, 1 - old % 2);
    cookie = rcu_seat_take(&seats[UPDATER]);
    while (IN_ORDER && !rcu_seat_poll(&seats[UPDATER], cookie)) turn_round(&spins);
    atomic_store_explicit(&shared.node[old % 2], 0, memory_order_relaxed);
    atomic_store(&shared.finished, true);
}

static void reader_reads_until_the_end(void) {
    for (unsigned spins = 0; !atomic_load(&shared.finished); turn_round(&spins)) {
        must("enter", rcu_seat_enter(&seats[READER]));
        atomic_ulong *node = &shared.node[load(&shared.pointer) % 2];
        idle(drawn(JITTER));
        if (!atomic_load_explicit(node, memory_order_relaxed)) seen++;
        must("exit", rcu_seat_exit(&seats[READER]));
        reader_quiesces();
    }
}

static void driver_drives_until_the_end(void) {
    unsigned spins = 0;
    begin();
    while (!atomic_load(&shared.finished)) {
        uint64_t number;
        collect_all();
        pthread_mutex_lock(&lock);
        if (rcu_awaited(&rcu) == 0) must("end", rcu_end(&rcu, &number));
        bool running = rcu_running(&rcu);
        pthread_mutex_unlock(&lock);
        if (!running) begin();
        turn_round(&spins);
    }
}

static bool judge_section(void) {
    reader_quiesces();
    collect_all();
    end();
    return seen > 0;
}

/* ---- the tests */

typedef void step(void);

static const struct test {
    const char *sentence;
    bool (*is_wrong)(void); /* in the step JUDGE, by the driver */
    step *steps[STEPS][THREADS];
} tests[] = {
    {"an unlink before a taking", judge_taking,
     {[READY] = {take_lines, updater_looks, 0},
      [ACT] = {driver_begins, updater_unlinks_and_takes, reader_finds_the_begin},
      [LEAVE] = {0, 0, reader_leaves}}},
    {"an unlink before a taking, for a reader that looks first", judge_taking,
     {[READY] = {take_lines, updater_looks, 0},
      [ACT] = {driver_begins, updater_unlinks_and_takes, reader_looks_for_the_begin},
      [LEAVE] = {0, 0, reader_leaves}}},
    {"an unlink before a taking, for a reader that arrives", judge_taking,
     {[READY] = {take_lines, updater_looks, reader_departs},
      [ACT] = {driver_begins, updater_unlinks_and_takes, reader_arrives_after_the_begin},
      [LEAVE] = {0, 0, reader_leaves}}},
    {"an unlink before a taking, for a reader that wakes", judge_taking,
     {[READY] = {take_lines, updater_looks, reader_gets_idle},
      [ACT] = {driver_begins, updater_unlinks_and_takes, reader_wakes_after_the_begin},
      [LEAVE] = {0, 0, reader_leaves}}},
    {"an unlink before a taking, for a reader that pins", judge_taking,
     {[READY] = {take_lines, updater_looks, reader_gets_idle},
      [ACT] = {driver_begins, updater_unlinks_and_takes, reader_pins_after_the_begin},
      [LEAVE] = {driver_ends_late, 0, reader_unpins_and_wakes}}},
    {"an unlink before a queueing", judge_queueing,
     {[ACT] = {driver_begins_for_a_callback, updater_unlinks_and_queues, reader_finds_the_begin},
      [LEAVE] = {0, 0, reader_leaves}}},
    {"an unlink before a begin", judge_begin,
     {[ACT] = {driver_unlinks_and_begins, 0, reader_finds_the_begin},
      [LEAVE] = {0, 0, reader_leaves}}},
    {"a section before what follows a done poll", judge_section,
     {[PREPARE] = {driver_fills_both_nodes, 0, 0},
      [ACT] = {driver_drives_until_the_end, updater_replaces, reader_reads_until_the_end}}},
    {"a request to be woken before a poll", judge_wake_up,
     {[PREPARE] = {driver_takes_and_begins, 0, 0},
      [READY] = {take_lines, updater_looks, reader_quiesces},
      [ACT] = {driver_ends_and_looks, updater_wants_and_polls, 0}}},
    {"a request to be woken before a poll, for who finds it done", judge_wake_up,
     {[PREPARE] = {driver_takes_and_begins, 0, 0},
      [READY] = {take_lines, updater_looks, reader_quiesces},
      [ACT] = {driver_ends, updater_wants_and_polls, reader_finds_it_done_and_looks}}},
    {"a request to be woken before a quiescent state", judge_wake_up,
     {[PREPARE] = {driver_takes_and_begins, 0, 0},
      [READY] = {take_lines, 0, reader_quiesces},
      [ACT] = {driver_ends_and_looks, 0, reader_wants_and_quiesces}}},
    {"what was processed under the lock before a barrier's end", judge_barrier,
     {[PREPARE] = {driver_begins_a_barrier, 0, 0},
      [READY] = {0, 0, reader_quiesces},
      [ACT] = {driver_ends_and_processes, 0, reader_tests_the_barrier}}},
};

enum { TESTS = sizeof tests / sizeof *tests };

static unsigned test;

static void take_step(unsigned at, unsigned thread) {
    step *own = tests[test].steps[at][thread];
    if (at == ACT) {
        if (nanoseconds() >= start) atomic_store(&late, true);
        while (nanoseconds() < start) continue;
    }
    if (own) own();
    if (at == READY && thread == DRIVER) {
        atomic_store(&late, false);
        start = nanoseconds() + LEAD;
    }
}

static void *act(void *it) {
    unsigned thread = (unsigned)(uintptr_t)it;
    settle(thread);
    for (;;) {
        meet();
        if (over) return 0;
        for (unsigned at = READY; at < STEPS; at++) {
            take_step(at, thread);
            meet();
        }
    }
}

/* Returns whether no round of the test was wrong. */
static bool drive(double most, bool counted) {
    unsigned long rounds = 0, wrong = 0;
    uint64_t end = nanoseconds() + (uint64_t)(most * 1e9);
    for (; nanoseconds() < end && rounds < MOST_ROUNDS; rounds++) {
        now++;
        take_step(PREPARE, DRIVER);
        meet();
        for (unsigned at = READY; at < STEPS; at++) {
            take_step(at, DRIVER);
            if (at == JUDGE) {
                wrong += tests[test].is_wrong();
                follow();
            }
            meet();
        }
    }
    printf("%s: %s", tests[test].sentence, wrong ? "WRONG" : "right");
    if (counted) printf(", wrong in %lu of %lu rounds", wrong, rounds);
    printf("\n");
    return wrong == 0;
}

int main(int count, char **words) {
    double most = count > 1 ? atof(words[1]) : 0.2;
    pthread_t threads[THREADS];
    bool well = true;
    settle(DRIVER);
    for (test = 0; test < TESTS; test++) {
        /* Each test has an engine of its own. */
        rcu = (rcu_t){0};
        over = false;
        shift = 0;
        must("open", rcu_open(THREADS, UINT64_C(1) << 62, &rcu));
        for (uint32_t cpu = 0; cpu < THREADS; cpu++) {
            seats[cpu] = (rcu_seat_t){0};
            must("seat", rcu_seat_open(&rcu, cpu, &seats[cpu]));
        }
        must("arrive", rcu_arrive(&rcu, &seats[READER]));
        for (uintptr_t i = UPDATER; i < THREADS; i++)
            if (pthread_create(&threads[i], 0, act, (void *)i)) return 1;
        well = drive(most, count > 1) && well;
        over = true;
        meet();
        for (unsigned i = UPDATER; i < THREADS; i++) pthread_join(threads[i], 0);
        rcu_close(&rcu);
        for (uint32_t cpu = 0; cpu < THREADS; cpu++) rcu_seat_close(&seats[cpu]);
    }
    return !well;
}
