/* A map that gets full: one of twice the size is filled beside it, of another engine, while two
 * threads read. Each reader goes over to the new one between two sections, and the old one is
 * closed when both have left it. Nothing is replaced here, so no grace period is needed. */
#define _POSIX_C_SOURCE 200809L
#include "rcu/map.h"
#include <inttypes.h>
#include <pthread.h>
#include <sched.h>
#include <stdatomic.h>
#include <stdio.h>
#include <stdlib.h>

/* An entry's words. */
enum { KEY, VALUE, WORDS };

enum { READERS = 2, CPUS = 1 + READERS, BUCKETS = 64, FIRST = 100, ALL = 2 * FIRST, TABLES = 2 };

/* An engine with its map, the lock that it lies under, and a seat for each thread: 0 is main's. */
struct table {
    rcu_t rcu;
    pthread_mutex_t lock;
    rcu_seat_t seats[CPUS];
};

static struct table tables[TABLES] = {{.lock = PTHREAD_MUTEX_INITIALIZER},
                                      {.lock = PTHREAD_MUTEX_INITIALIZER}};
static atomic_uint current, entries, reading[TABLES], wrong;

static void must(const char *call, uint32_t fault) {
    if (fault) {
        fprintf(stderr, "%s: %s\n", call, rcu_fault_text(fault));
        exit(1);
    }
}

/* ---- who reads */

static void arrive(struct table *table, uint32_t cpu) {
    pthread_mutex_lock(&table->lock);
    must("arrive", rcu_arrive(&table->rcu, &table->seats[cpu]));
    pthread_mutex_unlock(&table->lock);
}

static void depart(struct table *table, uint32_t cpu) {
    uint64_t moved;
    pthread_mutex_lock(&table->lock);
    must("depart", rcu_depart(&table->rcu, &table->seats[cpu], &moved));
    pthread_mutex_unlock(&table->lock);
}

/* A key that was in the map when the section began is found, with its value. */
static void look_up(rcu_seat_t *seat) {
    uint64_t seen;
    uint64_t entry[WORDS];
    unsigned filled = atomic_load_explicit(&entries, memory_order_acquire);
    must("enter", rcu_seat_enter(seat));
    for (uint64_t key = 1; key <= filled; key++) {
        must("get", rcu_map_get(seat, key, entry, WORDS));
        if (entry[KEY] != key || entry[VALUE] != 3 * key) atomic_fetch_add(&wrong, 1);
    }
    must("exit", rcu_seat_exit(seat));
    must("quiesce", rcu_seat_quiesce(seat, &seen));
}

static void *read_tables(void *own) {
    uint32_t cpu = *(uint32_t *)own;
    unsigned filled;
    for (unsigned at = 0; at < TABLES; at++) {
        struct table *table = &tables[at];
        arrive(table, cpu);
        atomic_fetch_add(&reading[at], 1);
        do {
            filled = atomic_load_explicit(&entries, memory_order_acquire);
            look_up(&table->seats[cpu]);
        } while (atomic_load_explicit(&current, memory_order_acquire) == at && filled < ALL);
        depart(table, cpu);
        atomic_fetch_sub(&reading[at], 1);
    }
    return 0;
}

/* ---- who updates: the main thread */

static void open_table(struct table *table, uint64_t max_entries) {
    rcu_map_sizes_t sizes = {.buckets = BUCKETS, .entries = max_entries, .seed = 1};
    must("open", rcu_open_map(CPUS, UINT64_C(1) << 62, &sizes, &table->rcu));
    for (uint32_t cpu = 0; cpu < CPUS; cpu++)
        must("seat", rcu_seat_open(&table->rcu, cpu, &table->seats[cpu]));
}

static void close_table(struct table *table) {
    for (uint32_t cpu = 0; cpu < CPUS; cpu++) rcu_seat_close(&table->seats[cpu]);
    rcu_close(&table->rcu);
}

static uint32_t insert(struct table *table, const uint64_t *entry) {
    uint64_t old[WORDS];
    pthread_mutex_lock(&table->lock);
    uint32_t fault = rcu_map_insert(&table->rcu, entry, WORDS, old, WORDS);
    pthread_mutex_unlock(&table->lock);
    return fault;
}

/* Inserts keys until the map is full. Returns the one for which there was no room. */
static uint64_t fill(struct table *table, uint64_t key) {
    for (; key <= ALL; key++) {
        const uint64_t entry[WORDS] = {key, 3 * key};
        uint32_t fault = insert(table, entry);
        if (fault == RCU_MAP_FULL) break;
        must("insert", fault);
        atomic_store_explicit(&entries, (unsigned)key, memory_order_release);
    }
    return key;
}

/* Puts all entries of a map into another one, as a section comes to them. */
static uint64_t copy(struct table *from, struct table *to) {
    uint64_t copied = 0;
    uint64_t entry[WORDS] = {0};
    must("enter", rcu_seat_enter(&from->seats[0]));
    for (;;) {
        must("next", rcu_map_next(&from->seats[0], entry[KEY], entry, WORDS));
        if (entry[KEY] == 0) break;
        must("insert", insert(to, entry));
        copied++;
    }
    must("exit", rcu_seat_exit(&from->seats[0]));
    return copied;
}

int main(void) {
    pthread_t readers[READERS];
    uint32_t cpus[READERS];
    open_table(&tables[0], FIRST);
    for (uint32_t reader = 0; reader < READERS; reader++) {
        cpus[reader] = 1 + reader;
        if (pthread_create(&readers[reader], 0, read_tables, &cpus[reader])) return 1;
    }
    uint64_t key = fill(&tables[0], 1);
    printf("full at %" PRIu64 " entries\n", key - 1);
    while (atomic_load(&reading[0]) < READERS) sched_yield();

    open_table(&tables[1], ALL);
    printf("copied %" PRIu64 "\n", copy(&tables[0], &tables[1]));
    atomic_store_explicit(&current, 1, memory_order_release);
    while (atomic_load(&reading[0]) > 0) sched_yield();
    close_table(&tables[0]);

    key = fill(&tables[1], key);
    for (int reader = 0; reader < READERS; reader++) pthread_join(readers[reader], 0);
    printf("%" PRIu64 " entries in one of twice the size, read well: %s\n",
           rcu_map_len(&tables[1].rcu), atomic_load(&wrong) ? "no" : "yes");
    close_table(&tables[1]);
    return 0;
}
