#define _GNU_SOURCE
#include "rcu.h"
#include <pthread.h>
#include <stdio.h>
#include <stdlib.h>
#include <time.h>
#ifdef WITH_LIBURCU
#include <urcu/urcu-qsbr.h>
#endif

enum { ROUNDS = 5, TIMES = 2000000, MOST = 4 };

static double nanoseconds(void) {
    struct timespec now;
    clock_gettime(CLOCK_MONOTONIC, &now);
    return (double)now.tv_sec * 1e9 + (double)now.tv_nsec;
}

static void must(uint32_t fault) {
    if (fault) {
        fprintf(stderr, "bench/c: fault %u\n", (unsigned)fault);
        exit(1);
    }
}

static void open_all(uint32_t cpus, rcu_t *rcu, rcu_seat_t *seats) {
    must(rcu_open(cpus, UINT64_C(1) << 62, rcu));
    for (uint32_t cpu = 0; cpu < cpus; cpu++) {
        must(rcu_seat_open(rcu, cpu, &seats[cpu]));
        if (cpu > 0) must(rcu_arrive(rcu, &seats[cpu]));
    }
}

static void measure_grace_periods(uint32_t cpus) {
    rcu_t rcu = {0};
    rcu_seat_t *seats = calloc(cpus, sizeof *seats);
    unsigned times = TIMES / cpus;
    double best = 1e18;
    uint64_t number, seen;
    uint32_t awaited, found;
    if (!seats) exit(1);
    open_all(cpus, &rcu, seats);
    for (int round = 0; round < ROUNDS; round++) {
        double begun = nanoseconds();
        for (unsigned i = 0; i < times; i++) {
            must(rcu_begin(&rcu, &number, &awaited));
            for (uint32_t cpu = 0; cpu < cpus; cpu++) {
                must(rcu_seat_quiesce(&seats[cpu], &seen));
                must(rcu_collect(&rcu, cpu, &found));
            }
            must(rcu_end(&rcu, &number));
        }
        double took = (nanoseconds() - begun) / times;
        if (took < best) best = took;
    }
    printf("grace period of %u: %.1f\n", (unsigned)cpus, best);
    for (uint32_t cpu = 0; cpu < cpus; cpu++) rcu_seat_close(&seats[cpu]);
    rcu_close(&rcu);
    free(seats);
}

/* So the number is no longer 0, where a quiescent state always stores. */
static void pass_a_grace_period(rcu_t *rcu, rcu_seat_t *seats) {
    uint64_t number;
    uint32_t awaited, found;
    must(rcu_begin(rcu, &number, &awaited));
    for (uint32_t cpu = 0; cpu < MOST; cpu++) {
        must(rcu_seat_quiesce(&seats[cpu], &number));
        must(rcu_collect(rcu, cpu, &found));
    }
    must(rcu_end(rcu, &number));
}

/* What a thread does so many times. */
typedef void work(rcu_seat_t *seat);

static void sections(rcu_seat_t *seat) {
    for (int i = 0; i < TIMES; i++) {
        must(rcu_seat_enter(seat));
        must(rcu_seat_exit(seat));
    }
}

static void quiescences(rcu_seat_t *seat) {
    uint64_t seen;
    for (int i = 0; i < TIMES; i++) must(rcu_seat_quiesce(seat, &seen));
}

static void unfenced_quiescences(rcu_seat_t *seat) {
    uint64_t seen;
    for (int i = 0; i < TIMES; i++) must(rcu_seat_quiesce_unfenced(seat, &seen));
}

static void still_quiet(rcu_seat_t *seat) {
    uint64_t seen = 0;
    for (int i = 0; i < TIMES; i++) must(rcu_seat_quiesce_since(seat, &seen));
}

static void sleeps(rcu_seat_t *seat) {
    uint64_t seen;
    for (int i = 0; i < TIMES; i++) {
        must(rcu_seat_idle(seat));
        must(rcu_seat_wake(seat, &seen));
    }
}

static void unfenced_sleeps(rcu_seat_t *seat) {
    uint64_t seen;
    for (int i = 0; i < TIMES; i++) {
        must(rcu_seat_idle(seat));
        must(rcu_seat_wake_unfenced(seat, &seen));
    }
}

static void takings(rcu_seat_t *seat) {
    for (int i = 0; i < TIMES; i++)
        if (!rcu_seat_take(seat)) exit(1);
}

static void unfenced_takings(rcu_seat_t *seat) {
    for (int i = 0; i < TIMES; i++)
        if (!rcu_seat_take_unfenced(seat)) exit(1);
}

static void polls(rcu_seat_t *seat) {
    uint64_t cookie = rcu_seat_take(seat);
    for (int i = 0; i < TIMES; i++)
        if (rcu_seat_poll(seat, cookie)) exit(1);
}

static void unfenced_polls(rcu_seat_t *seat) {
    uint64_t cookie = rcu_seat_take(seat);
    for (int i = 0; i < TIMES; i++)
        if (rcu_seat_poll_unfenced(seat, cookie)) exit(1);
}

#ifdef WITH_LIBURCU
static void their_sections(rcu_seat_t *seat) {
    (void)seat;
    for (int i = 0; i < TIMES; i++) {
        urcu_qsbr_read_lock();
        urcu_qsbr_read_unlock();
    }
}

static void their_quiescences(rcu_seat_t *seat) {
    (void)seat;
    for (int i = 0; i < TIMES; i++) urcu_qsbr_quiescent_state();
}
#endif

struct job {
    work *work;
    rcu_seat_t *seat;
    double took;
};

static pthread_barrier_t together;

static void *perform(void *it) {
    struct job *job = it;
#ifdef WITH_LIBURCU
    urcu_qsbr_register_thread();
    urcu_qsbr_thread_offline();
#endif
    pthread_barrier_wait(&together);
#ifdef WITH_LIBURCU
    urcu_qsbr_thread_online();
#endif
    double begun = nanoseconds();
    job->work(job->seat);
    job->took = (nanoseconds() - begun) / TIMES;
#ifdef WITH_LIBURCU
    urcu_qsbr_unregister_thread();
#endif
    return 0;
}

/* The slowest thread of a round counts. */
static void measure_threads(const char *name, work *work, int threads, rcu_seat_t *seats) {
    double best = 1e18;
    for (int round = 0; round < ROUNDS; round++) {
        pthread_t ids[MOST];
        struct job jobs[MOST];
        double slowest = 0;
        pthread_barrier_init(&together, 0, (unsigned)threads);
        for (int i = 0; i < threads; i++) {
            jobs[i] = (struct job){work, &seats[i], 0};
            if (pthread_create(&ids[i], 0, perform, &jobs[i])) exit(1);
        }
        for (int i = 0; i < threads; i++) {
            pthread_join(ids[i], 0);
            if (jobs[i].took > slowest) slowest = jobs[i].took;
        }
        pthread_barrier_destroy(&together);
        if (slowest < best) best = slowest;
    }
    printf("%s on %d: %.2f\n", name, threads, best);
}

int main(void) {
    rcu_t rcu = {0};
    rcu_seat_t seats[MOST] = {{0}};
    for (uint32_t cpus = 1; cpus <= 64; cpus *= 8) measure_grace_periods(cpus);
    open_all(MOST, &rcu, seats);
    pass_a_grace_period(&rcu, seats);
    for (int threads = 1; threads <= MOST; threads += MOST - 1) {
        measure_threads("section", sections, threads, seats);
        measure_threads("quiescent state", quiescences, threads, seats);
        measure_threads("quiescent state, unfenced", unfenced_quiescences, threads, seats);
        measure_threads("quiescent state where nothing moved", still_quiet, threads, seats);
        measure_threads("idle and wake", sleeps, threads, seats);
        measure_threads("idle and wake, unfenced", unfenced_sleeps, threads, seats);
        measure_threads("taking", takings, threads, seats);
        measure_threads("taking, unfenced", unfenced_takings, threads, seats);
        measure_threads("poll", polls, threads, seats);
        measure_threads("poll, unfenced", unfenced_polls, threads, seats);
#ifdef WITH_LIBURCU
        measure_threads("liburcu's section", their_sections, threads, seats);
        measure_threads("liburcu's quiescent state", their_quiescences, threads, seats);
#endif
    }
    for (int i = 0; i < MOST; i++) rcu_seat_close(&seats[i]);
    rcu_close(&rcu);
    return 0;
}
