/* Three threads read a list while a fourth one replaces its nodes. A node that was replaced is a
 * callback, and freed when it is handed out: when nobody reads it any more. */
#include "rcu.h"
#include <inttypes.h>
#include <pthread.h>
#include <stdatomic.h>
#include <stdio.h>
#include <stdlib.h>

enum { READERS = 3, CPUS = READERS + 1, NODES = 8, UPDATES = 50000, ROOM = 64 };

struct node {
    _Atomic(struct node *) next;
    uint64_t value, twice;
};

static _Atomic(struct node *) head;
static atomic_bool over;
static atomic_uint wrong, readings[CPUS];
static char quiet[CPUS];

/* The engine, and the lock that it lies under. */
static rcu_t rcu;
static pthread_mutex_t lock = PTHREAD_MUTEX_INITIALIZER;
static rcu_seat_t seats[CPUS];

static void must(const char *call, uint32_t fault) {
    if (fault) {
        printf("%s: fault %" PRIu32 "\n", call, fault);
        exit(1);
    }
}

static struct node *new_node(uint64_t value) {
    struct node *node = malloc(sizeof *node);
    if (!node) exit(1);
    node->value = value;
    node->twice = 2 * value;
    return node;
}

/* A reader follows a pointer by an acquire, and an updater publishes one by a release: the same
 * store takes out of the list what stood there. */
static struct node *follow(_Atomic(struct node *) *link) {
    return atomic_load_explicit(link, memory_order_acquire);
}

static void publish(_Atomic(struct node *) *link, struct node *node) {
    atomic_store_explicit(link, node, memory_order_release);
}

static void count_wrong(void) {
    atomic_fetch_add_explicit(&wrong, 1, memory_order_relaxed);
}

static void pass_quiescent_state(uint32_t cpu) {
    uint64_t seen;
    RCU_SANITIZER_RELEASE(&quiet[cpu]);
    must("quiesce", rcu_seat_quiesce(&seats[cpu], &seen));
}

static void *read_list(void *it) {
    uint32_t cpu = (uint32_t)(uintptr_t)it;
    uint64_t moved;
    pthread_mutex_lock(&lock);
    must("arrive", rcu_arrive(&rcu, &seats[cpu]));
    pthread_mutex_unlock(&lock);
    while (!atomic_load_explicit(&over, memory_order_acquire)) {
        must("enter", rcu_seat_enter(&seats[cpu]));
        unsigned seen = 0;
        for (struct node *node = follow(&head); node; node = follow(&node->next), seen++)
            if (node->twice != 2 * node->value) count_wrong();
        if (seen != NODES) count_wrong();
        must("exit", rcu_seat_exit(&seats[cpu]));
        pass_quiescent_state(cpu);
        atomic_fetch_add_explicit(&readings[cpu], 1, memory_order_relaxed);
    }
    pthread_mutex_lock(&lock);
    must("depart", rcu_depart(&rcu, &seats[cpu], &moved));
    pthread_mutex_unlock(&lock);
    return 0;
}

/* Goes on with the grace periods by one step, and frees what is handed out. Returns how many. */
static uint64_t drive(void) {
    uint64_t done, waiting, count, values[ROOM];
    uint32_t found;
    rcu_turn_t turn;
    pass_quiescent_state(0);
    pthread_mutex_lock(&lock);
    must("tend", rcu_tend(&rcu, 0, &done, &waiting));
    for (uint32_t cpu = 0; cpu < CPUS; cpu++) {
        must("collect", rcu_collect(&rcu, cpu, &found));
        if (found == RCU_COLLECTED_TAKEN || found == RCU_COLLECTED_LAST)
            RCU_SANITIZER_ACQUIRE(&quiet[cpu]);
    }
    must("turn", rcu_turn(&rcu, &turn));
    if (turn.what == RCU_TURN_BEGUN)
        for (uint32_t cpu = 0; cpu < CPUS; cpu++) RCU_SANITIZER_ACQUIRE(&quiet[cpu]);
    must("run", rcu_run(&rcu, 0, values, ROOM, &count));
    pthread_mutex_unlock(&lock);
    for (uint64_t i = 0; i < count; i++) free((void *)(uintptr_t)values[i]);
    return count;
}

/* Puts a new node in the place of the one that stands there, which becomes a callback. */
static void replace(unsigned place, uint64_t value) {
    _Atomic(struct node *) *link = &head;
    while (place--) link = &follow(link)->next;
    struct node *old = follow(link), *new = new_node(value);
    uint64_t queued;
    publish(&new->next, follow(&old->next));
    publish(link, new);
    pthread_mutex_lock(&lock);
    must("queue", rcu_queue(&rcu, 0, (uint64_t)(uintptr_t)old, &queued));
    pthread_mutex_unlock(&lock);
}

int main(void) {
    pthread_t threads[READERS];
    uint64_t freed = 0;
    must("open", rcu_open(CPUS, UINT64_C(1) << 62, &rcu));
    for (uint32_t cpu = 0; cpu < CPUS; cpu++) must("seat", rcu_seat_open(&rcu, cpu, &seats[cpu]));
    for (unsigned i = 0; i < NODES; i++) {
        struct node *node = new_node(i);
        publish(&node->next, follow(&head));
        publish(&head, node);
    }
    for (uintptr_t i = 0; i < READERS; i++)
        if (pthread_create(&threads[i], 0, read_list, (void *)(i + 1))) return 1;
    for (unsigned i = 0; i < UPDATES; i++) {
        replace(i % NODES, NODES + i);
        freed += drive();
    }
    while (freed < UPDATES) freed += drive();
    for (unsigned cpu = 1; cpu < CPUS; cpu++)
        while (!atomic_load_explicit(&readings[cpu], memory_order_relaxed)) freed += drive();
    atomic_store_explicit(&over, true, memory_order_release);
    for (unsigned i = 0; i < READERS; i++) pthread_join(threads[i], 0);
    printf("replaced %d, freed %" PRIu64 ", read wrong %u\n", UPDATES, freed, atomic_load(&wrong));
    for (struct node *node = follow(&head), *next; node; node = next) {
        next = follow(&node->next);
        free(node);
    }
    rcu_close(&rcu);
    for (uint32_t cpu = 0; cpu < CPUS; cpu++) rcu_seat_close(&seats[cpu]);
    return 0;
}
