/* Gets, walks and updates of liburcu's hash table (cds_lfht), for bench/map, which builds this file
 * for the flavours qsbr and memb, by library calls and (with _LGPL_SOURCE) by inlined ones. Use:
 * KIND THREADS ROUNDS. It prints a line a round: the nanoseconds of an operation, and the
 * processor's, the mean of all threads. The keys, their order and their number are those of
 * bench/map_rust.rs. */
#define _GNU_SOURCE
#define URCU_API_MAP
#ifdef QSBR
#include <urcu/urcu-qsbr.h>
#define QUIET rcu_quiescent_state()
#else
#include <urcu/urcu-memb.h>
#define QUIET (void)0
#endif
#include <pthread.h>
#include <stdatomic.h>
#include <stdbool.h>
#include <stdint.h>
#include <stdio.h>
#include <stdlib.h>
#include <string.h>
#include <time.h>
#include <urcu/rculfhash.h>

enum { ENTRIES = 4096, BUCKETS = 1024, HOPS = 8, DRAWS = 16384, TIMES = 8, EACH = 16, MOST = 4 };

struct entry {
    struct cds_lfht_node node;
    struct rcu_head head;
    uint64_t key, value;
};

enum kind { HIT, MISS, INSIDE, WALK, BESIDE, UPDATE, KINDS };
static const char *const names[KINDS] = {"hit", "miss", "inside", "walk", "beside", "update"};

static struct cds_lfht *table;
static uint64_t keys[ENTRIES], draws[DRAWS];
static pthread_barrier_t start;
static atomic_bool over;
static bool walks;

static uint64_t draw(uint64_t *state) {
    *state = *state * UINT64_C(6364136223846793005) + UINT64_C(1442695040888963407);
    return *state >> 33;
}

/* An entry's key is even. For a walk the last 512 of them are drawn, which end the chains. */
static void make_keys(enum kind kind) {
    const uint64_t chains = ENTRIES / HOPS;
    uint64_t state = 1;
    walks = kind == WALK;
    for (uint64_t i = 0; i < ENTRIES; i++) keys[i] = 2 * (BUCKETS + i);
    for (uint64_t i = 0; i < DRAWS; i++) {
        uint64_t at = draw(&state);
        draws[i] =
            walks ? keys[ENTRIES - chains + at % chains] : keys[at % ENTRIES] + (kind == MISS);
    }
}

/* The hash of a key: its low bits are the bucket. For a walk each of 512 buckets has a chain of 8,
 * in the order of the keys. */
static unsigned long hash_of(uint64_t key) {
    if (!walks) return key * UINT64_C(0x9e3779b97f4a7c15) >> 40;
    uint64_t at = key / 2 - BUCKETS, chains = ENTRIES / HOPS;
    return at % chains + BUCKETS * (at / chains);
}

static int is_of_key(struct cds_lfht_node *node, const void *key) {
    return caa_container_of(node, struct entry, node)->key == *(const uint64_t *)key;
}

static struct entry *find(uint64_t key) {
    struct cds_lfht_iter found;
    cds_lfht_lookup(table, hash_of(key), is_of_key, &key, &found);
    struct cds_lfht_node *node = cds_lfht_iter_get_node(&found);
    return node ? caa_container_of(node, struct entry, node) : 0;
}

static uint64_t get(uint64_t key) {
    struct entry *entry = find(key);
    return entry ? entry->key + entry->value : 0;
}

static void insert(uint64_t key) {
    struct entry *entry = malloc(sizeof *entry);
    if (!entry) abort();
    entry->key = key;
    entry->value = 2 * key;
    rcu_read_lock();
    if (cds_lfht_add_unique(table, hash_of(key), is_of_key, &key, &entry->node) != &entry->node)
        abort();
    rcu_read_unlock();
}

static void free_entry(struct rcu_head *head) { free(caa_container_of(head, struct entry, head)); }

static void discard(uint64_t key) {
    rcu_read_lock();
    struct entry *entry = find(key);
    if (!entry || cds_lfht_del(table, &entry->node)) abort();
    rcu_read_unlock();
    call_rcu(&entry->head, free_entry);
}

static double now(clockid_t clock) {
    struct timespec time;
    clock_gettime(clock, &time);
    return (double)time.tv_sec * 1e9 + (double)time.tv_nsec;
}

/* Gets each drawn key in a section of its own, with a quiescent state after each 16. */
static uint64_t get_all(void) {
    uint64_t sum = 0;
    for (int i = 0; i < DRAWS; i += EACH) {
        for (int k = i; k < i + EACH; k++) {
            rcu_read_lock();
            sum += get(draws[k]);
            rcu_read_unlock();
        }
        QUIET;
    }
    return sum;
}

/* Gets each drawn key, in one section. */
static uint64_t get_inside(void) {
    uint64_t sum = 0;
    rcu_read_lock();
    for (int i = 0; i < DRAWS; i++) sum += get(draws[i]);
    rcu_read_unlock();
    QUIET;
    return sum;
}

/* Removes the keys from one on, and inserts them again. */
static void update(uint64_t from, uint64_t many) {
    for (uint64_t i = from; i < from + many; i++) discard(keys[i]);
    QUIET;
    for (uint64_t i = from; i < from + many; i++) insert(keys[i]);
    QUIET;
}

/* What one thread does, and what it took. */
struct job {
    pthread_t id;
    enum kind kind;
    unsigned times;
    uint64_t from, many, sum;
    double took, used;
};

static void *perform(void *it) {
    struct job *job = it;
    rcu_register_thread();
#ifdef QSBR
    rcu_thread_offline();
#endif
    pthread_barrier_wait(&start);
#ifdef QSBR
    rcu_thread_online();
#endif
    double begun = now(CLOCK_MONOTONIC), unused = now(CLOCK_THREAD_CPUTIME_ID);
    for (unsigned i = 0; i < job->times; i++) {
        if (job->kind == UPDATE) update(job->from, job->many);
        else if (job->kind == INSIDE)
            job->sum += get_inside();
        else
            job->sum += get_all();
    }
    job->used = (now(CLOCK_THREAD_CPUTIME_ID) - unused) / job->times;
    job->took = (now(CLOCK_MONOTONIC) - begun) / job->times;
    rcu_unregister_thread();
    return 0;
}

/* Updates a sixteenth of the entries, until all is over. */
static void *disturb(void *it) {
    (void)it;
    rcu_register_thread();
    while (!atomic_load(&over)) update(0, ENTRIES / 16);
    rcu_unregister_thread();
    return 0;
}

/* Prints the nanoseconds of an operation, a get, or a removal and an insertion, and those of the
 * processor. */
static void measure(enum kind kind, unsigned threads) {
    struct job jobs[MOST] = {{0}};
    pthread_t other;
    unsigned times = threads == 1 ? 1 : TIMES;
    double took = 0, used = 0;
    atomic_store(&over, false);
    if (kind == BESIDE && pthread_create(&other, 0, disturb, 0)) abort();
    pthread_barrier_init(&start, 0, threads);
    for (unsigned i = 0; i < threads; i++) {
        uint64_t many = ENTRIES / threads;
        jobs[i] = (struct job){.kind = kind, .times = times, .from = i * many, .many = many};
        if (pthread_create(&jobs[i].id, 0, perform, &jobs[i])) abort();
    }
    for (unsigned i = 0; i < threads; i++) {
        pthread_join(jobs[i].id, 0);
        double many = threads * (double)(kind == UPDATE ? jobs[i].many : DRAWS);
        took += jobs[i].took / many;
        used += jobs[i].used / many;
        if (kind != UPDATE && kind != BESIDE && (jobs[i].sum == 0) != (kind == MISS)) abort();
    }
    atomic_store(&over, true);
    if (kind == BESIDE) pthread_join(other, 0);
    pthread_barrier_destroy(&start);
    printf("%.3f %.3f\n", took, used);
}

int main(int count, char **words) {
    int kind = 0;
    if (count != 4) return 2;
    while (kind < KINDS && strcmp(words[1], names[kind])) kind++;
    unsigned threads = (unsigned)atoi(words[2]);
    if (kind == KINDS || threads < 1 || threads > MOST) return 2;
    make_keys((enum kind)kind);
    table = cds_lfht_new(BUCKETS, BUCKETS, BUCKETS, 0, 0);
    if (!table) abort();
    rcu_register_thread();
    for (int i = 0; i < ENTRIES; i++) insert(keys[i]);
#ifdef QSBR
    rcu_thread_offline();
#endif
    for (int round = atoi(words[3]); round > 0; round--) measure((enum kind)kind, threads);
    return 0;
}
