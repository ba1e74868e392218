/* Threads that come and go: 400 visitors, eight at a time, read by the seats of three processors.
 * Who comes takes a free seat, and hands it back when it goes. Who finds none waits for one. */
#include "rcu.h"
#include <inttypes.h>
#include <pthread.h>
#include <stdatomic.h>
#include <stdio.h>
#include <stdlib.h>

enum { CPUS = 4, WAVES = 50, AT_ONCE = 8, ROOM = 64 };

struct node {
    uint64_t value, twice;
};

static _Atomic(struct node *) shown;
static atomic_uint wrong;

/* The engine, the lock that it lies under, and what is told when a seat comes back. */
static rcu_t rcu;
static pthread_mutex_t lock = PTHREAD_MUTEX_INITIALIZER;
static pthread_cond_t returned = PTHREAD_COND_INITIALIZER;

static void must(const char *call, uint32_t answer, uint32_t wanted) {
    if (answer != wanted) {
        printf("%s: %" PRIu32 " and not %" PRIu32 "\n", call, answer, wanted);
        exit(1);
    }
}

static struct node *new_node(uint64_t value) {
    struct node *node = malloc(sizeof *node);
    if (!node) exit(1);
    node->value = value;
    node->twice = 2 * value;
    return node;
}

/* The first processor from 1 on whose seat is free, or CPUS. */
static uint32_t free_processor(void) {
    uint32_t cpu = 1;
    while (cpu < CPUS && !rcu_has_seat(&rcu, cpu)) cpu++;
    return cpu;
}

static void come(rcu_seat_t *seat) {
    uint32_t cpu;
    pthread_mutex_lock(&lock);
    while ((cpu = free_processor()) == CPUS) pthread_cond_wait(&returned, &lock);
    must("seat", rcu_seat_open(&rcu, cpu, seat), 0);
    must("seat of one that is dealt", rcu_has_seat(&rcu, cpu), false);
    must("arrive", rcu_arrive(&rcu, seat), 0);
    pthread_mutex_unlock(&lock);
}

static void go(rcu_seat_t seat) {
    uint64_t moved;
    pthread_mutex_lock(&lock);
    must("depart", rcu_depart(&rcu, &seat, &moved), 0);
    must("return", rcu_seat_return(&rcu, &seat), 0);
    pthread_cond_signal(&returned);
    pthread_mutex_unlock(&lock);
}

static void *visit(void *unused) {
    rcu_seat_t seat = {0};
    come(&seat);
    must("depth at first", rcu_seat_depth(&seat), 0);
    must("online", rcu_seat_is_online(&seat), true);
    must("idle", rcu_seat_is_idle(&seat), false);
    must("enter", rcu_seat_enter(&seat), 0);
    struct node *node = atomic_load_explicit(&shown, memory_order_acquire);
    if (node->twice != 2 * node->value)
        atomic_fetch_add_explicit(&wrong, 1, memory_order_relaxed);
    must("depth inside", rcu_seat_depth(&seat), 1);
    must("exit", rcu_seat_exit(&seat), 0);
    go(seat);
    return unused;
}

/* Shows a new node. The one before becomes a callback. */
static void replace(uint64_t value) {
    struct node *old = atomic_load_explicit(&shown, memory_order_relaxed);
    uint64_t queued;
    atomic_store_explicit(&shown, new_node(value), memory_order_release);
    pthread_mutex_lock(&lock);
    must("queue", rcu_queue(&rcu, 0, (uint64_t)(uintptr_t)old, &queued), 0);
    pthread_mutex_unlock(&lock);
}

/* Goes on with the grace periods by one step, and frees what is handed out. Answers how many. */
static uint64_t drive(void) {
    uint64_t done, waiting, count, values[ROOM];
    uint32_t found;
    rcu_turn_t turn;
    pthread_mutex_lock(&lock);
    must("tend", rcu_tend(&rcu, 0, &done, &waiting), 0);
    for (uint32_t cpu = 0; cpu < CPUS; cpu++) must("collect", rcu_collect(&rcu, cpu, &found), 0);
    must("turn", rcu_turn(&rcu, &turn), 0);
    must("run", rcu_run(&rcu, 0, values, ROOM, &count), 0);
    pthread_mutex_unlock(&lock);
    for (uint64_t i = 0; i < count; i++) free((void *)(uintptr_t)values[i]);
    return count;
}

int main(void) {
    pthread_t threads[AT_ONCE];
    rcu_seat_t boot = {0};
    uint64_t freed = 0;
    must("open", rcu_open(CPUS, UINT64_C(1) << 62, &rcu), 0);
    must("seat of no processor", rcu_has_seat(&rcu, CPUS), false);
    must("no processor online", rcu_online(&rcu, CPUS), false);
    must("no processor awaited", rcu_awaits(&rcu, UINT32_MAX), false);
    /* Nobody reads on processor 0. */
    must("seat", rcu_seat_open(&rcu, 0, &boot), 0);
    must("idle", rcu_seat_idle(&boot), 0);
    must("idle", rcu_seat_is_idle(&boot), true);
    must("return", rcu_seat_return(&rcu, &boot), 0);
    must("seat that came back", rcu_has_seat(&rcu, 0), true);
    atomic_store_explicit(&shown, new_node(0), memory_order_release);
    for (uint64_t wave = 1; wave <= WAVES; wave++) {
        for (unsigned i = 0; i < AT_ONCE; i++)
            if (pthread_create(&threads[i], 0, visit, 0)) return 1;
        replace(wave);
        freed += drive();
        for (unsigned i = 0; i < AT_ONCE; i++) pthread_join(threads[i], 0);
    }
    while (freed < WAVES) freed += drive();
    for (uint32_t cpu = 0; cpu < CPUS; cpu++) must("free seat", rcu_has_seat(&rcu, cpu), true);
    printf("visitors %d, freed %" PRIu64 ", read wrong %u\n", WAVES * AT_ONCE, freed,
           atomic_load(&wrong));
    free(atomic_load_explicit(&shown, memory_order_relaxed));
    rcu_close(&rcu);
    return 0;
}
