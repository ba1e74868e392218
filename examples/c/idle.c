/* Threads that block are idle meanwhile: two readers sleep until they are asked to look at a node,
 * and the driver, which replaces it, sleeps until they have answered. No grace period waits for
 * those that sleep. */
#include "rcu.h"
#include <inttypes.h>
#include <pthread.h>
#include <semaphore.h>
#include <stdatomic.h>
#include <stdio.h>
#include <stdlib.h>

enum { READERS = 2, CPUS = READERS + 1, UPDATES = 2000, ROOM = 64 };

struct node {
    uint64_t value, twice;
};

static _Atomic(struct node *) shown;
static atomic_bool over;
static atomic_uint wrong;
static sem_t asked[CPUS], answered;
static char quiet[CPUS];

/* The engine, and the lock that it lies under. */
static rcu_t rcu;
static pthread_mutex_t lock = PTHREAD_MUTEX_INITIALIZER;
static rcu_seat_t seats[CPUS];

static void must(const char *call, uint32_t answer, uint32_t wanted) {
    if (answer != wanted) {
        printf("%s: %" PRIu32 " and not %" PRIu32 "\n", call, answer, wanted);
        exit(1);
    }
}

static struct node *new_node(uint64_t value) {
    struct node *node = malloc(sizeof *node);
    if (!node) exit(1);
    node->value = value;
    node->twice = 2 * value;
    return node;
}

/* Sleeps until the semaphore is posted. The processor is idle meanwhile. */
static void wait_for(uint32_t cpu, sem_t *posted) {
    uint64_t seen;
    RCU_SANITIZER_RELEASE(&quiet[cpu]);
    must("idle", rcu_seat_idle(&seats[cpu]), 0);
    while (sem_wait(posted)) continue;
    must("wake", rcu_seat_wake(&seats[cpu], &seen), 0);
}

static void *answer(void *it) {
    uint32_t cpu = (uint32_t)(uintptr_t)it;
    uint64_t moved;
    pthread_mutex_lock(&lock);
    must("arrive", rcu_arrive(&rcu, &seats[cpu]), 0);
    pthread_mutex_unlock(&lock);
    for (;;) {
        sem_post(&answered);
        wait_for(cpu, &asked[cpu]);
        if (atomic_load_explicit(&over, memory_order_acquire)) break;
        must("enter", rcu_seat_enter(&seats[cpu]), 0);
        struct node *node = atomic_load_explicit(&shown, memory_order_acquire);
        if (node->twice != 2 * node->value)
            atomic_fetch_add_explicit(&wrong, 1, memory_order_relaxed);
        must("exit", rcu_seat_exit(&seats[cpu]), 0);
    }
    RCU_SANITIZER_RELEASE(&quiet[cpu]);
    pthread_mutex_lock(&lock);
    must("depart", rcu_depart(&rcu, &seats[cpu], &moved), 0);
    pthread_mutex_unlock(&lock);
    return 0;
}

/* Processor 0 never departs, but may be idle: then a grace period awaits nobody. */
static void be_idle(void) {
    uint64_t number, seen;
    uint32_t awaited;
    must("wake of one that is awake", rcu_seat_wake(&seats[0], &seen), RCU_NOT_IDLE);
    must("idle", rcu_seat_idle(&seats[0]), 0);
    must("idle again", rcu_seat_idle(&seats[0]), RCU_CPU_IDLE);
    must("enter while idle", rcu_seat_enter(&seats[0]), RCU_CPU_IDLE);
    must("quiesce while idle", rcu_seat_quiesce(&seats[0], &seen), RCU_CPU_IDLE);
    must("begin", rcu_begin(&rcu, &number, &awaited), 0);
    printf("begun %" PRIu64 ", awaits %" PRIu32 "\n", number, awaited);
    must("end", rcu_end(&rcu, &number), 0);
    must("wake", rcu_seat_wake(&seats[0], &seen), 0);
    printf("ended %" PRIu64 ", the wake saw %" PRIu64 "\n", number, seen);
    must("enter", rcu_seat_enter(&seats[0]), 0);
    must("idle in a section", rcu_seat_idle(&seats[0]), RCU_IN_SECTION);
    must("exit", rcu_seat_exit(&seats[0]), 0);
}

/* Shows a new node. The one before becomes a callback. */
static void replace(uint64_t value) {
    struct node *old = atomic_load_explicit(&shown, memory_order_relaxed);
    uint64_t queued;
    atomic_store_explicit(&shown, new_node(value), memory_order_release);
    pthread_mutex_lock(&lock);
    must("queue", rcu_queue(&rcu, 0, (uint64_t)(uintptr_t)old, &queued), 0);
    pthread_mutex_unlock(&lock);
}

/* Goes on with the grace periods by one step, and frees what is handed out. Returns how many. */
static uint64_t drive(void) {
    uint64_t done, waiting, count, seen, values[ROOM];
    uint32_t found;
    rcu_turn_t turn;
    must("quiesce", rcu_seat_quiesce(&seats[0], &seen), 0);
    pthread_mutex_lock(&lock);
    must("tend", rcu_tend(&rcu, 0, &done, &waiting), 0);
    for (uint32_t cpu = 0; cpu < CPUS; cpu++) {
        must("collect", rcu_collect(&rcu, cpu, &found), 0);
        if (found == RCU_COLLECTED_TAKEN || found == RCU_COLLECTED_LAST)
            RCU_SANITIZER_ACQUIRE(&quiet[cpu]);
    }
    must("turn", rcu_turn(&rcu, &turn), 0);
    if (turn.what == RCU_TURN_BEGUN)
        for (uint32_t cpu = 0; cpu < CPUS; cpu++) RCU_SANITIZER_ACQUIRE(&quiet[cpu]);
    must("run", rcu_run(&rcu, 0, values, ROOM, &count), 0);
    pthread_mutex_unlock(&lock);
    for (uint64_t i = 0; i < count; i++) free((void *)(uintptr_t)values[i]);
    return count;
}

int main(void) {
    pthread_t threads[READERS];
    uint64_t freed = 0;
    must("open", rcu_open(CPUS, UINT64_C(1) << 62, &rcu), 0);
    for (uint32_t cpu = 0; cpu < CPUS; cpu++) {
        must("seat", rcu_seat_open(&rcu, cpu, &seats[cpu]), 0);
        if (sem_init(&asked[cpu], 0, 0)) return 1;
    }
    if (sem_init(&answered, 0, 0)) return 1;
    be_idle();
    atomic_store_explicit(&shown, new_node(0), memory_order_release);
    for (uintptr_t i = 1; i < CPUS; i++) {
        if (pthread_create(&threads[i - 1], 0, answer, (void *)i)) return 1;
        wait_for(0, &answered);
    }
    for (uint64_t i = 1; i <= UPDATES; i++) {
        replace(i);
        sem_post(&asked[1 + i % READERS]);
        wait_for(0, &answered);
        freed += drive();
    }
    while (freed < UPDATES) freed += drive();
    atomic_store_explicit(&over, true, memory_order_release);
    for (uint32_t cpu = 1; cpu < CPUS; cpu++) sem_post(&asked[cpu]);
    for (unsigned i = 0; i < READERS; i++) pthread_join(threads[i], 0);
    printf("replaced %d, freed %" PRIu64 ", read wrong %u\n", UPDATES, freed, atomic_load(&wrong));
    free(atomic_load_explicit(&shown, memory_order_relaxed));
    for (uint32_t cpu = 0; cpu < CPUS; cpu++) sem_destroy(&asked[cpu]);
    sem_destroy(&answered);
    rcu_close(&rcu);
    for (uint32_t cpu = 0; cpu < CPUS; cpu++) rcu_seat_close(&seats[cpu]);
    return 0;
}
