/* Three threads read a table, key by key and entry by entry, while one updates it, and drives the
 * grace periods. An entry leads to a record, which is freed once no section can have found it. A key
 * that stays is found at each look, also while its entry is replaced, and never with the words of
 * two. Then what a map refuses. */
#include "rcu/map.h"
#include <inttypes.h>
#include <pthread.h>
#include <sched.h>
#include <stdalign.h>
#include <stdatomic.h>
#include <stdio.h>
#include <stdlib.h>

enum { READERS = 3, CPUS = 1 + READERS, STAY = 16, KEYS = 64, SPARE = 64, UPDATES = 2000 };

/* An entry's words: its key, the place of its record, and what the record counts. */
enum { KEY, PLACE, COUNT, WORDS };

/* What an entry leads to. Keys 1 to STAY are there at any time, those up to KEYS come and
 * go. */
struct record {
    rcu_link_t link; /* at first */
    uint64_t key, count, twice;
};

/* A processor's seat, and the number of its latest quiescent state. Each has its own cache line. */
struct seat {
    alignas(64) rcu_seat_t seat;
    uint64_t quiet_at;
};

static rcu_t rcu;
static struct seat seats[CPUS];
static atomic_bool over;
static atomic_uint wrong;
static uint64_t made, freed;

static void must(const char *call, uint32_t fault) {
    if (fault) fprintf(stderr, "%s: %s\n", call, rcu_fault_text(fault));
    if (fault) abort();
}

static void count_wrong(void) {
    atomic_fetch_add_explicit(&wrong, 1, memory_order_relaxed);
}

/* ---- who reads */

static struct record *record_of(const uint64_t *entry) {
    return (struct record *)(uintptr_t)entry[PLACE];
}

/* Whether an entry leads to its record. The thread sanitizer does not see what the map orders. */
static bool is_whole(const uint64_t *entry) {
    struct record *record = record_of(entry);
    RCU_SANITIZER_ACQUIRE(record);
    return record->key == entry[KEY] && record->count == entry[COUNT]
        && record->twice == 2 * record->count;
}

static void look_up(rcu_seat_t *seat) {
    uint64_t entry[WORDS];
    for (uint64_t key = 1; key <= KEYS; key++) {
        must("get", rcu_map_get(seat, key, entry, WORDS));
        if (entry[KEY] == 0 ? key <= STAY : entry[KEY] != key || !is_whole(entry)) count_wrong();
    }
}

/* Each key that stays is listed, and none is listed twice. */
static void list_all(rcu_seat_t *seat) {
    const uint64_t stay = (UINT64_C(1) << STAY) - 1;
    uint64_t listed = 0;
    uint64_t entry[WORDS] = {0};
    for (;;) {
        must("next", rcu_map_next(seat, entry[KEY], entry, WORDS));
        if (entry[KEY] == 0) break;
        uint64_t its = UINT64_C(1) << (entry[KEY] - 1);
        if ((listed & its) != 0 || !is_whole(entry)) count_wrong();
        listed |= its;
    }
    if ((listed & stay) != stay) count_wrong();
}

static void *read_table(void *it) {
    struct seat *own = it;
    do {
        must("enter", rcu_seat_enter(&own->seat));
        look_up(&own->seat);
        list_all(&own->seat);
        must("exit", rcu_seat_exit(&own->seat));
        RCU_SANITIZER_RELEASE(own);
        must("quiesce", rcu_seat_quiesce_since(&own->seat, &own->quiet_at));
    } while (!atomic_load_explicit(&over, memory_order_acquire));
    RCU_SANITIZER_RELEASE(own);
    must("idle", rcu_seat_idle(&own->seat));
    return 0;
}

/* ---- who updates: the main thread, by seat 0, which is idle. It makes all calls on the engine, so
 * they need no lock. */

/* Makes a record, and the entry that leads to it. */
static void make_record(uint64_t key, uint64_t *entry) {
    struct record *record = malloc(sizeof *record);
    if (!record) abort();
    record->key = entry[KEY] = key;
    record->count = entry[COUNT] = ++made;
    record->twice = 2 * record->count;
    entry[PLACE] = (uintptr_t)record;
    RCU_SANITIZER_RELEASE(record);
}

static void free_record(rcu_link_t *link) {
    struct record *record = (struct record *)link;
    record->twice = 1;
    free(record);
    freed++;
}

/* Frees the records that are done, and goes on with the grace period that the others wait for. */
static void free_done(void) {
    rcu_turn_t turn;
    for (rcu_link_t *link; (link = rcu_defer_take(&seats[0].seat)); free_record(link))
        for (uint32_t cpu = 1; cpu < CPUS; cpu++) RCU_SANITIZER_ACQUIRE(&seats[cpu]);
    must("drive", rcu_drive_for(&rcu, rcu_defer_cookie(&seats[0].seat), &turn));
}

static void free_later(const uint64_t *old) {
    must("defer", rcu_defer_link(&seats[0].seat, &record_of(old)->link));
    free_done();
}

typedef uint32_t (*put_call)(rcu_t *, const uint64_t *, size_t, uint64_t *, size_t);

/* Puts an entry in. While no node is free it drives: one will be free after a grace period. */
static void put_in(const char *what, put_call call, const uint64_t *entry, uint64_t *old) {
    uint32_t fault;
    while ((fault = call(&rcu, entry, WORDS, old, WORDS)) == RCU_MAP_FULL) {
        must("wait", rcu_map_wait(&rcu));
        sched_yield();
    }
    must(what, fault);
}

/* Replaces the entry of a key that is there. */
static void replace(uint64_t key) {
    uint64_t entry[WORDS], old[WORDS];
    make_record(key, entry);
    put_in("replace", rcu_map_replace, entry, old);
    if (old[KEY] != key) count_wrong();
    free_later(old);
}

/* Puts an entry in, be the key there or not. */
static void put(uint64_t key) {
    uint64_t entry[WORDS], old[WORDS];
    make_record(key, entry);
    put_in("put", rcu_map_put, entry, old);
    if (old[KEY]) free_later(old);
}

static void take_out(uint64_t key) {
    uint64_t old[WORDS];
    must("remove", rcu_map_remove(&rcu, key, old, WORDS));
    if (old[KEY]) free_later(old);
}

/* Puts an entry in where the key is not there, and takes the one out that is. */
static void come_or_go(uint64_t key) {
    uint64_t entry[WORDS], old[WORDS];
    make_record(key, entry);
    put_in("insert", rcu_map_insert, entry, old);
    if (!old[KEY]) return;
    free_record(&record_of(entry)->link);
    take_out(key);
}

static void set_up_table(void) {
    rcu_map_sizes_t sizes = {.buckets = 8, .entries = KEYS + SPARE, .seed = 1, .words = WORDS};
    must("open", rcu_open_map(CPUS, UINT64_C(1) << 62, &sizes, &rcu));
    for (uint32_t cpu = 0; cpu < CPUS; cpu++) {
        must("seat", rcu_seat_open(&rcu, cpu, &seats[cpu].seat));
        if (cpu) must("arrive", rcu_arrive(&rcu, &seats[cpu].seat));
    }
    must("idle", rcu_seat_idle(&seats[0].seat));
}

static void update_table(void) {
    pthread_t readers[READERS];
    set_up_table();
    for (uint64_t key = 1; key <= STAY; key++) come_or_go(key);
    for (unsigned i = 0; i < READERS; i++)
        if (pthread_create(&readers[i], 0, read_table, &seats[1 + i])) abort();
    for (uint64_t i = 0; i < UPDATES; i++) {
        replace(1 + i % STAY);
        if (i % 2) put(STAY + 1 + i * 5 % (KEYS - STAY));
        else come_or_go(STAY + 1 + i * 7 % (KEYS - STAY));
    }
    atomic_store_explicit(&over, true, memory_order_release);
    for (unsigned i = 0; i < READERS; i++) pthread_join(readers[i], 0);
    uint64_t entries = rcu_map_len(&rcu);
    for (uint64_t key = 1; key <= KEYS; key++) take_out(key);
    while (rcu_defer_count(&seats[0].seat)) free_done();
    printf("%" PRIu64 " records made, %" PRIu64 " freed; %" PRIu64 " entries, then %" PRIu64
           "; read wrong %u\n", made, freed, entries, rcu_map_len(&rcu), atomic_load(&wrong));
    for (uint32_t cpu = 0; cpu < CPUS; cpu++) rcu_seat_close(&seats[cpu].seat);
    rcu_close(&rcu);
}

/* ---- what is refused */

static void tell(const char *what, uint32_t fault) { printf("%s: %" PRIu32 "\n", what, fault); }

static void refuse_sizes(void) {
    rcu_t none = {0};
    static const rcu_map_sizes_t bad[] = {
        {.buckets = 0, .entries = 8}, {.buckets = 8, .entries = 8, .words = 1},
        {.buckets = 8, .entries = UINT64_C(1) << 32}, {.buckets = 8, .entries = 8, .words = UINT64_MAX},
        {.buckets = 8, .entries = UINT64_MAX}, {.buckets = UINT64_MAX, .entries = UINT64_MAX}};
    printf("bad sizes:");
    for (unsigned i = 0; i < sizeof bad / sizeof *bad; i++)
        printf(" %" PRIu32, rcu_open_map(0, 3, &bad[i], &none));
    printf("\n");
    rcu_map_sizes_t sizes = {.buckets = 8};
    tell("no processor", rcu_open_map(0, 3, &sizes, &none));
    tell("a bad last number", rcu_open_map_as(1, 3, rcu_new_identity(), &sizes, &none));
}

/* What each call returns on these handles, for this key and so many words. */
static void tell_all(const char *handles, rcu_t *engine, rcu_seat_t *seat, uint64_t key,
                     size_t words) {
    const uint64_t entry[WORDS] = {key};
    uint64_t old[WORDS], replaced[WORDS] = {key}, removed[WORDS] = {key}, cookie;
    const uint32_t told[] = {
        rcu_map_insert(engine, entry, words, old, words),
        rcu_map_replace(engine, entry, words, old, words),
        rcu_map_put(engine, entry, words, old, words),
        rcu_map_remove(engine, key, old, words),
        rcu_map_find(engine, key, old, words),
        rcu_map_compare_replace(engine, entry, words, replaced, words),
        rcu_map_compare_remove(engine, removed, words),
        rcu_map_reclaim(engine, &cookie),
        rcu_map_wait(engine),
        rcu_seat_map_wait(engine, seat),
        rcu_map_get(seat, key, old, words),
        rcu_map_next(seat, key, old, words)};
    printf("%s:", handles);
    for (unsigned i = 0; i < sizeof told / sizeof *told; i++) printf(" %" PRIu32, told[i]);
    printf("; entries: %" PRIu64 "\n", rcu_map_len(engine));
}

/* Until the cookie is done: no processor of the engine is awaited. */
static void pass_grace_periods(rcu_t *engine, uint64_t cookie) {
    rcu_turn_t turn;
    while (!rcu_poll(engine, cookie)) must("drive", rcu_drive_for(engine, cookie, &turn));
}

/* Puts an entry of two words in, and writes the one that had its key to `old`. */
static uint32_t put_two(put_call call, rcu_t *engine, uint64_t key, uint64_t value, uint64_t *old) {
    const uint64_t entry[] = {key, value};
    return call(engine, entry, 2, old, 2);
}

/* A map with room for two entries, of two words. */
static void fill(rcu_t *engine, rcu_seat_t *seat) {
    uint64_t old[2], cookie;
    must("insert", put_two(rcu_map_insert, engine, 1, 10, old));
    must("insert", put_two(rcu_map_insert, engine, 2, 20, old));
    tell("full, an insertion", put_two(rcu_map_insert, engine, 3, 30, old));
    tell("a wait for room", rcu_map_wait(engine));
    tell("a replacement", put_two(rcu_map_replace, engine, 1, 11, old));
    tell("another one", put_two(rcu_map_replace, engine, 1, 12, old));
    tell("either", put_two(rcu_map_put, engine, 1, 12, old));
    tell("an insertion of a key that is there", put_two(rcu_map_insert, engine, 1, 12, old));
    printf("it has %" PRIu64 "\n", old[1]);
    tell("a replacement of a key that is not there", put_two(rcu_map_replace, engine, 3, 30, old));
    printf("it had the key %" PRIu64 "\n", old[0]);
    must("remove", rcu_map_remove(engine, 2, old, 2));
    printf("removed %" PRIu64 "\n", old[1]);
    tell("behind a removal", put_two(rcu_map_insert, engine, 3, 30, old));
    must("reclaim", rcu_map_reclaim(engine, &cookie));
    tell("once the node waits", put_two(rcu_map_insert, engine, 3, 30, old));
    pass_grace_periods(engine, cookie);
    must("reclaim", rcu_map_reclaim(engine, &cookie));
    tell("a grace period later", put_two(rcu_map_insert, engine, 3, 30, old));
    tell("a look in no section", rcu_map_get(seat, 3, old, 2));
    tell("a next one in no section", rcu_map_next(seat, 0, old, 2));
    must("pin", rcu_seat_pin(seat));
    must("get", rcu_map_get(seat, 3, old, 2));
    printf("a section finds %" PRIu64 "\n", old[1]);
    must("get", rcu_map_get(seat, 2, old, 2));
    printf("then the key %" PRIu64 ", and %" PRIu64 " stays\n", old[0], old[1]);
    printf("insert, replace, put, remove, find, compare_replace, compare_remove, age, wait, wait by the "
           "seat, get, next:\n");
    tell_all("key 0", engine, seat, 0, 2);
    tell_all("three words", engine, seat, 3, 3);
    must("replace", put_two(rcu_map_replace, engine, 3, 31, old));
    for (unsigned i = 0; i < 8; i++) must("wait", rcu_map_wait(engine));
    tell("waiting beside the section", put_two(rcu_map_replace, engine, 3, 32, old));
    tell("waiting in it", rcu_seat_map_wait(engine, seat));
    must("unpin", rcu_seat_unpin(seat));
    unsigned steps = 0;
    while (put_two(rcu_map_replace, engine, 3, 32, old) == RCU_MAP_FULL) {
        must("wait", rcu_seat_map_wait(engine, seat));
        steps++;
    }
    printf("behind it a node was free after %u steps\n", steps);
    uint32_t fault;
    do fault = rcu_map_wait(engine);
    while (!fault);
    tell("waiting for room beside the entries", fault);
}

/* Updates that are made if an entry is as it was read, of a map with room for two. */
static void compare(rcu_t *engine) {
    uint64_t old[2], read[2] = {1, 9};
    must("insert", put_two(rcu_map_insert, engine, 1, 10, old));
    tell("replaced, if it was 9", put_two(rcu_map_compare_replace, engine, 1, 11, read));
    printf("it is %" PRIu64 "\n", read[1]);
    tell("if it was so", put_two(rcu_map_compare_replace, engine, 1, 11, read));
    tell("and if it still is", rcu_map_compare_remove(engine, read, 2));
    printf("it is %" PRIu64 "\n", read[1]);
    tell("removed, if it was so", rcu_map_compare_remove(engine, read, 2));
    tell("and then", rcu_map_compare_remove(engine, read, 2));
    printf("it has the key %" PRIu64 "\n", read[0]);
    must("insert", put_two(rcu_map_insert, engine, 1, 11, old));
    tell("replaced, if it was none", put_two(rcu_map_compare_replace, engine, 1, 12, read));
    printf("it is %" PRIu64 "\n", read[1]);
    tell("if it was of another key",
         put_two(rcu_map_compare_replace, engine, 2, 11, (uint64_t[]){1, 11}));
    tell("with no node free, if it was 10",
         put_two(rcu_map_compare_replace, engine, 1, 12, (uint64_t[]){1, 10}));
    tell("if it was 11", put_two(rcu_map_compare_replace, engine, 1, 12, read));
    printf("it is %" PRIu64 "\n", read[1]);
}

static void refuse_calls(void) {
    rcu_map_sizes_t sizes = {.buckets = 1, .entries = 2};
    rcu_t engine = {0}, closed = {0};
    rcu_seat_t seat = {0}, no_seat = {0};
    must("open", rcu_open_map(1, 400, &sizes, &engine));
    must("seat", rcu_seat_open(&engine, 0, &seat));
    must("idle", rcu_seat_idle(&seat));
    fill(&engine, &seat);
    tell_all("closed", &closed, &no_seat, 3, 2);
    tell_all("of the other kind", (rcu_t *)&seat, (rcu_seat_t *)&engine, 3, 2);
    rcu_seat_close(&seat);
    rcu_close(&engine);
    must("open", rcu_open_map(1, 8, &sizes, &engine));
    compare(&engine);
    rcu_close(&engine);
    must("open", rcu_open(1, 8, &engine));
    tell_all("a map of no entry, a closed seat", &engine, &seat, 3, 2);
    must("open", rcu_open(1, 8, &closed));
    must("seat", rcu_seat_open(&closed, 0, &seat));
    tell("a wait by a seat of another engine", rcu_seat_map_wait(&engine, &seat));
    rcu_seat_close(&seat);
    rcu_close(&closed);
    rcu_close(&engine);
}

int main(void) {
    update_table();
    refuse_sizes();
    refuse_calls();
    return 0;
}
