/* A driver that sleeps. Threads that read come and go, and are idle while they nap. One updater
 * waits for a grace period before it frees a node; another one defers that by its own seat, with no
 * lock. Nobody polls: the driver sleeps until a grace period is requested, and then until the
 * readers that it awaits are quiet. (The two marks tell the thread sanitizer what the library
 * orders.) */
#define _POSIX_C_SOURCE 200809L
#include "rcu.h"
#include <pthread.h>
#include <stdalign.h>
#include <stdatomic.h>
#include <stdio.h>
#include <stdlib.h>
#include <time.h>

enum { UPDATERS = 2, READERS = 3, CPUS = UPDATERS + READERS };
enum { UPDATES = 2000, BATCH = 64, ROUNDS = 50 };

struct node {
    rcu_link_t link; /* at first */
    uint64_t value, twice;
};

/* A processor's seat, and the number of its latest quiescent state. Each has its own cache line. */
struct seat {
    alignas(64) rcu_seat_t seat;
    uint64_t quiet_at;
};

static _Atomic(struct node *) shown[UPDATERS];
static atomic_uint wrong, freed;
static atomic_bool over;
static struct seat seats[CPUS];

/* The engine, and the lock that it lies under. */
static rcu_t rcu;
static bool closing;
static pthread_mutex_t lock = PTHREAD_MUTEX_INITIALIZER;
static pthread_cond_t requested = PTHREAD_COND_INITIALIZER, quiet = PTHREAD_COND_INITIALIZER;
static pthread_cond_t ended = PTHREAD_COND_INITIALIZER;

static void must(const char *call, uint32_t fault) {
    if (fault) fprintf(stderr, "%s: %s\n", call, rcu_fault_text(fault));
    if (fault) abort();
}

static void wake(pthread_cond_t *condition) {
    pthread_mutex_lock(&lock);
    pthread_cond_signal(condition);
    pthread_mutex_unlock(&lock);
}

static void acquire_readers(void) {
    for (unsigned cpu = UPDATERS; cpu < CPUS; cpu++) RCU_SANITIZER_ACQUIRE(&seats[cpu]);
}

/* ---- the driver, with the lock held unless it sleeps */

/* The call collects after it says for whom the driver sleeps, so no quiescent state is missed. */
static void sleep_until_quiet(void) {
    uint32_t sleeps, left;
    do {
        must("prepare wait", rcu_driver_prepare_wait(&rcu, &sleeps, &left));
        if (sleeps) pthread_cond_wait(&quiet, &lock);
    } while (left);
}

static void make_grace_periods(uint64_t cookie) {
    rcu_turn_t turn;
    while (!rcu_poll(&rcu, cookie)) {
        must("drive", rcu_drive_for(&rcu, cookie, &turn));
        if (turn.what == RCU_TURN_ENDED) {
            acquire_readers();
            pthread_cond_broadcast(&ended);
        } else {
            sleep_until_quiet();
        }
    }
}

/* It says that it sleeps before it looks for the last time: a later request wakes it. */
static void *drive(void *it) {
    uint64_t cookie;
    pthread_mutex_lock(&lock);
    while (!closing) {
        must("requested", rcu_requested_gp(&rcu, true, &cookie));
        if (rcu_poll(&rcu, cookie)) {
            pthread_cond_wait(&requested, &lock);
        } else {
            must("requested", rcu_requested_gp(&rcu, false, &cookie));
            make_grace_periods(cookie);
        }
    }
    pthread_mutex_unlock(&lock);
    return it;
}

/* ---- readers */

/* The reader's processor just got quiet, idle or offline: if the driver sleeps for it, it wakes. */
static void wake_driver(struct seat *own) {
    uint32_t wakes;
    must("should wake", rcu_seat_should_wake_driver(&own->seat, &wakes));
    if (wakes) wake(&quiet);
}

/* If the number is as it was, no grace period began. At a multiple of 4 none runs. */
static void pass_quiescent_state(struct seat *own) {
    uint64_t since = own->quiet_at;
    RCU_SANITIZER_RELEASE(own);
    must("quiesce", rcu_seat_quiesce_since(&own->seat, &own->quiet_at));
    if (own->quiet_at != since && own->quiet_at % 4) wake_driver(own);
}

static void nap(void) {
    struct timespec time = {0, 100000};
    nanosleep(&time, 0);
}

/* Each tenth section is long: the driver sleeps until it ends. */
static void read_both(struct seat *own, unsigned round) {
    must("enter", rcu_seat_enter(&own->seat));
    for (unsigned i = 0; i < UPDATERS; i++) {
        struct node *node = atomic_load_explicit(&shown[i], memory_order_acquire);
        if (round % 10 == 5) nap();
        if (node->twice != 2 * node->value) atomic_fetch_add(&wrong, 1);
    }
    must("exit", rcu_seat_exit(&own->seat));
}

static void be_idle(struct seat *own) {
    RCU_SANITIZER_RELEASE(own);
    must("idle", rcu_seat_idle(&own->seat));
    wake_driver(own);
    nap();
    must("wake", rcu_seat_wake(&own->seat, &own->quiet_at));
}

static void arrive(struct seat *own) {
    pthread_mutex_lock(&lock);
    must("arrive", rcu_arrive(&rcu, &own->seat));
    pthread_mutex_unlock(&lock);
}

static void depart(struct seat *own) {
    uint64_t moved;
    RCU_SANITIZER_RELEASE(own);
    pthread_mutex_lock(&lock);
    must("depart", rcu_depart(&rcu, &own->seat, &moved));
    pthread_mutex_unlock(&lock);
    wake_driver(own);
}

static void *read_and_rest(void *it) {
    struct seat *own = it;
    while (!atomic_load_explicit(&over, memory_order_acquire)) {
        arrive(own);
        for (unsigned i = 1; i <= ROUNDS; i++) {
            read_both(own, i);
            pass_quiescent_state(own);
            if (i % 10 == 0) be_idle(own);
        }
        depart(own);
    }
    return 0;
}

/* ---- updaters. Their processors open no section: one is idle, and the other one offline. */

static struct node *new_node(uint64_t value) {
    struct node *node = malloc(sizeof *node);
    if (!node) abort();
    node->value = value;
    node->twice = 2 * value;
    return node;
}

/* Shows a new node, and gives the old one. */
static struct node *replace(unsigned which, uint64_t value) {
    return atomic_exchange_explicit(&shown[which], new_node(value), memory_order_acq_rel);
}

static void free_node(struct node *node) {
    node->twice = 2 * node->value + 1;
    free(node);
    atomic_fetch_add(&freed, 1);
}

/* Requests a grace period, with no lock unless the driver sleeps. */
static void request(struct seat *own, uint64_t cookie) {
    uint32_t wakes;
    must("request", rcu_seat_request_gp(&own->seat, cookie, &wakes));
    if (wakes) wake(&requested);
}

static void wait_for(struct seat *own, uint64_t cookie) {
    request(own, cookie);
    pthread_mutex_lock(&lock);
    while (!rcu_poll(&rcu, cookie)) pthread_cond_wait(&ended, &lock);
    pthread_mutex_unlock(&lock);
}

static void *wait_each_time(void *it) {
    struct seat *own = it;
    for (uint64_t i = 1; i <= UPDATES; i++) {
        struct node *old = replace(0, i);
        wait_for(own, rcu_seat_take(&own->seat));
        free_node(old);
    }
    return 0;
}

/* Frees the nodes that are done, and requests a grace period for the others. */
static void free_done(struct seat *own) {
    for (rcu_link_t *link; (link = rcu_defer_take(&own->seat));) {
        acquire_readers();
        free_node((struct node *)link);
    }
    request(own, rcu_defer_cookie(&own->seat));
}

static void *defer_each_time(void *it) {
    struct seat *own = it;
    for (uint64_t i = 1; i <= UPDATES; i++) {
        must("defer", rcu_defer_link(&own->seat, &replace(1, i)->link));
        if (i % BATCH == 0) free_done(own);
    }
    while (free_done(own), rcu_defer_count(&own->seat))
        wait_for(own, rcu_defer_cookie(&own->seat));
    return 0;
}

int main(void) {
    static void *(*const work[])(void *) = {wait_each_time, defer_each_time};
    pthread_t driver, threads[CPUS];
    must("open", rcu_open(CPUS, UINT64_C(1) << 62, &rcu));
    for (uint32_t cpu = 0; cpu < CPUS; cpu++)
        must("seat", rcu_seat_open(&rcu, cpu, &seats[cpu].seat));
    must("idle", rcu_seat_idle(&seats[0].seat));
    for (unsigned i = 0; i < UPDATERS; i++) atomic_init(&shown[i], new_node(0));
    if (pthread_create(&driver, 0, drive, 0)) return 1;
    for (unsigned i = CPUS; i-- > 0;)
        if (pthread_create(&threads[i], 0, i < UPDATERS ? work[i] : read_and_rest, &seats[i]))
            return 1;
    for (unsigned i = 0; i < UPDATERS; i++) pthread_join(threads[i], 0);
    printf("freed %u, read wrong %u\n", atomic_load(&freed), atomic_load(&wrong));
    atomic_store_explicit(&over, true, memory_order_release);
    for (unsigned i = UPDATERS; i < CPUS; i++) pthread_join(threads[i], 0);
    pthread_mutex_lock(&lock);
    closing = true;
    pthread_mutex_unlock(&lock);
    wake(&requested);
    pthread_join(driver, 0);
    for (unsigned i = 0; i < UPDATERS; i++) free(atomic_load(&shown[i]));
    for (uint32_t cpu = 0; cpu < CPUS; cpu++) rcu_seat_close(&seats[cpu].seat);
    rcu_close(&rcu);
    return 0;
}
