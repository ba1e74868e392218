/* A thread reads a setting without a lock, while the main thread replaces it and frees the old
 * ones. (The two marks of the thread sanitizer are for that one alone: else they do nothing.) */
#include "rcu.h"
#include <inttypes.h>
#include <pthread.h>
#include <stdatomic.h>
#include <stdio.h>
#include <stdlib.h>

enum { CPUS = 2, VALUES = 1000, ROOM = 64 };

struct setting {
    uint64_t value;
};

static _Atomic(struct setting *) shown;
static atomic_bool over;
static char quiet;

/* The engine, the lock that it lies under, and a seat for the main thread and for the reader. */
static rcu_t rcu;
static pthread_mutex_t lock = PTHREAD_MUTEX_INITIALIZER;
static rcu_seat_t seats[CPUS];

static void must(const char *call, uint32_t fault) {
    if (fault) {
        fprintf(stderr, "%s: %s\n", call, rcu_fault_text(fault));
        exit(1);
    }
}

/* The reader. A section needs no lock, and a quiescent state after it needs none. */
static void *read_settings(void *last) {
    uint64_t seen, moved;
    pthread_mutex_lock(&lock);
    must("arrive", rcu_arrive(&rcu, &seats[1]));
    pthread_mutex_unlock(&lock);
    while (!atomic_load_explicit(&over, memory_order_acquire)) {
        must("enter", rcu_seat_enter(&seats[1]));
        struct setting *setting = atomic_load_explicit(&shown, memory_order_acquire);
        *(uint64_t *)last = setting->value;
        must("exit", rcu_seat_exit(&seats[1]));
        RCU_SANITIZER_RELEASE(&quiet);
        must("quiesce", rcu_seat_quiesce(&seats[1], &seen));
    }
    pthread_mutex_lock(&lock);
    must("depart", rcu_depart(&rcu, &seats[1], &moved));
    pthread_mutex_unlock(&lock);
    return 0;
}

/* One step of the engine: looks at each processor, ends or begins a grace period, and frees the
 * settings that no section can read any more. Returns how many. */
static uint64_t drive(void) {
    uint64_t seen, done, waiting, count, old[ROOM];
    rcu_turn_t turn;
    must("quiesce", rcu_seat_quiesce(&seats[0], &seen));
    pthread_mutex_lock(&lock);
    must("tend", rcu_tend(&rcu, 0, &done, &waiting));
    must("drive", rcu_drive(&rcu, &turn));
    must("run", rcu_run(&rcu, 0, old, ROOM, &count));
    pthread_mutex_unlock(&lock);
    if (count) RCU_SANITIZER_ACQUIRE(&quiet);
    for (uint64_t i = 0; i < count; i++) free((void *)(uintptr_t)old[i]);
    return count;
}

/* Shows a new setting, and queues the one that it replaces. */
static void replace(uint64_t value) {
    struct setting *setting = malloc(sizeof *setting);
    if (!setting) exit(1);
    setting->value = value;
    struct setting *old = atomic_exchange_explicit(&shown, setting, memory_order_acq_rel);
    uint64_t queued;
    if (!old) return;
    pthread_mutex_lock(&lock);
    must("queue", rcu_queue(&rcu, 0, (uint64_t)(uintptr_t)old, &queued));
    pthread_mutex_unlock(&lock);
}

int main(void) {
    uint64_t freed = 0, last = 0, left = 1;
    pthread_t reader;
    must("open", rcu_open(CPUS, UINT64_C(1) << 62, &rcu));
    for (uint32_t cpu = 0; cpu < CPUS; cpu++) must("seat", rcu_seat_open(&rcu, cpu, &seats[cpu]));
    replace(0);
    if (pthread_create(&reader, 0, read_settings, &last)) return 1;
    for (uint64_t value = 1; value <= VALUES; value++) {
        replace(value);
        freed += drive();
    }
    /* The end: the reader departs, and a barrier tells when all is handed out. */
    atomic_store_explicit(&over, true, memory_order_release);
    pthread_join(reader, 0);
    while (left) {
        must("barrier", rcu_barrier_wait(&rcu, &left));
        freed += drive();
    }
    printf("replaced %d, freed %" PRIu64 ", read well: %s\n", VALUES, freed,
           last <= VALUES ? "yes" : "no");
    free(atomic_load(&shown));
    for (uint32_t cpu = 0; cpu < CPUS; cpu++) rcu_seat_close(&seats[cpu]);
    rcu_close(&rcu);
    return 0;
}
