/* Two threads replace nodes, and free the old ones by cookies, with no callback: each takes and
 * polls by its seat, without the lock, and sleeps until it is woken. Two threads read, one drives. */
#include "rcu.h"
#include <inttypes.h>
#include <pthread.h>
#include <sched.h>
#include <semaphore.h>
#include <stdatomic.h>
#include <stdio.h>
#include <stdlib.h>

enum { READERS = 2, UPDATERS = 2, FIRST_UPDATER = 1 + READERS, CPUS = FIRST_UPDATER + UPDATERS };
enum { UPDATES = 500 };

struct node {
    uint64_t value, twice;
};

/* What an updater shows to readers, and how it is woken. */
static struct slot {
    _Atomic(struct node *) shown;
    atomic_bool wants;
    sem_t woken;
} slots[UPDATERS];

static atomic_bool over;
static atomic_uint wrong, at_work = UPDATERS;
static char quiet[CPUS];

static rcu_t rcu;
static pthread_mutex_t lock = PTHREAD_MUTEX_INITIALIZER;
static rcu_seat_t seats[CPUS];

static void must(const char *call, uint32_t fault) {
    if (fault) {
        printf("%s: fault %" PRIu32 "\n", call, fault);
        exit(1);
    }
}

static struct node *new_node(uint64_t value) {
    struct node *node = malloc(sizeof *node);
    if (!node) exit(1);
    node->value = value;
    node->twice = 2 * value;
    return node;
}

static void pass_quiescent_state(uint32_t cpu) {
    uint64_t seen;
    RCU_SANITIZER_RELEASE(&quiet[cpu]);
    must("quiesce", rcu_seat_quiesce(&seats[cpu], &seen));
}

static void *read_all(void *it) {
    uint32_t cpu = (uint32_t)(uintptr_t)it;
    uint64_t moved;
    pthread_mutex_lock(&lock);
    must("arrive", rcu_arrive(&rcu, &seats[cpu]));
    pthread_mutex_unlock(&lock);
    while (!atomic_load_explicit(&over, memory_order_acquire)) {
        must("enter", rcu_seat_enter(&seats[cpu]));
        for (unsigned i = 0; i < UPDATERS; i++) {
            struct node *node = atomic_load_explicit(&slots[i].shown, memory_order_acquire);
            if (node->twice != 2 * node->value)
                atomic_fetch_add_explicit(&wrong, 1, memory_order_relaxed);
        }
        must("exit", rcu_seat_exit(&seats[cpu]));
        pass_quiescent_state(cpu);
        sched_yield();
    }
    pthread_mutex_lock(&lock);
    must("depart", rcu_depart(&rcu, &seats[cpu], &moved));
    pthread_mutex_unlock(&lock);
    return 0;
}

/* Sleeps until the cookie is done. The request to be woken is stored before the poll, so who ends
 * the grace period sees it, or the poll is done. */
static void wait_for(uint64_t cookie, struct slot *slot, rcu_seat_t *seat) {
    for (;;) {
        atomic_store_explicit(&slot->wants, true, memory_order_release);
        if (rcu_seat_poll(seat, cookie)) break;
        while (sem_wait(&slot->woken)) continue;
    }
    for (unsigned cpu = 0; cpu < CPUS; cpu++) RCU_SANITIZER_ACQUIRE(&quiet[cpu]);
}

/* An updater's processor is never online: taking and polling need no more than its seat. */
static void *replace_nodes(void *it) {
    unsigned own = (unsigned)(uintptr_t)it;
    struct slot *slot = &slots[own];
    rcu_seat_t *seat = &seats[FIRST_UPDATER + own];
    for (uint64_t i = 1; i <= UPDATES; i++) {
        struct node *old = atomic_load_explicit(&slot->shown, memory_order_relaxed);
        atomic_store_explicit(&slot->shown, new_node(i), memory_order_release);
        wait_for(rcu_seat_take(seat), slot, seat);
        old->twice = 2 * old->value + 1;
        free(old);
    }
    atomic_fetch_sub_explicit(&at_work, 1, memory_order_release);
    return 0;
}

static void wake_all(void) {
    for (unsigned i = 0; i < UPDATERS; i++) {
        if (!atomic_load_explicit(&slots[i].wants, memory_order_acquire)) continue;
        atomic_store_explicit(&slots[i].wants, false, memory_order_relaxed);
        sem_post(&slots[i].woken);
    }
}

/* Goes on with the grace periods by one step, one after the other. */
static void drive(void) {
    uint64_t number;
    uint32_t awaited, found;
    bool ended = false;
    pass_quiescent_state(0);
    pthread_mutex_lock(&lock);
    if (!rcu_running(&rcu)) must("begin", rcu_begin(&rcu, &number, &awaited));
    for (uint32_t cpu = 0; cpu < CPUS; cpu++) must("collect", rcu_collect(&rcu, cpu, &found));
    if (rcu_awaited(&rcu) == 0) {
        must("end", rcu_end(&rcu, &number));
        ended = true;
    }
    pthread_mutex_unlock(&lock);
    if (ended) wake_all();
}

int main(void) {
    pthread_t readers[READERS], updaters[UPDATERS];
    must("open", rcu_open(CPUS, UINT64_C(1) << 62, &rcu));
    for (uint32_t cpu = 0; cpu < CPUS; cpu++) must("seat", rcu_seat_open(&rcu, cpu, &seats[cpu]));
    for (unsigned i = 0; i < UPDATERS; i++) {
        if (sem_init(&slots[i].woken, 0, 0)) return 1;
        atomic_store_explicit(&slots[i].shown, new_node(0), memory_order_release);
    }
    for (uintptr_t i = 0; i < READERS; i++)
        if (pthread_create(&readers[i], 0, read_all, (void *)(i + 1))) return 1;
    for (uintptr_t i = 0; i < UPDATERS; i++)
        if (pthread_create(&updaters[i], 0, replace_nodes, (void *)i)) return 1;
    while (atomic_load_explicit(&at_work, memory_order_acquire)) {
        drive();
        sched_yield();
    }
    for (unsigned i = 0; i < UPDATERS; i++) pthread_join(updaters[i], 0);
    atomic_store_explicit(&over, true, memory_order_release);
    for (unsigned i = 0; i < READERS; i++) pthread_join(readers[i], 0);
    for (unsigned i = 0; i < UPDATERS; i++) {
        free(atomic_load_explicit(&slots[i].shown, memory_order_relaxed));
        sem_destroy(&slots[i].woken);
    }
    rcu_close(&rcu);
    for (uint32_t cpu = 0; cpu < CPUS; cpu++) rcu_seat_close(&seats[cpu]);
    printf("freed %d, read wrong %u\n", UPDATERS * UPDATES, atomic_load(&wrong));
    return 0;
}
