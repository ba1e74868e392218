/* Each allocation is refused in turn: the call returns 16 and leaves what it writes to as it was,
 * and nothing is lost. The same call again, with one allocation more, does what it has to. */
#include "rcu/map.h"
#include <inttypes.h>
#include <stdio.h>
#include <stdlib.h>

enum { CPUS = 20, VALUES = 4, ROOM = 4, MOST = 3, UNTOUCHED = 99 };

static rcu_t rcu;
static rcu_seat_t seats[CPUS];
static const rcu_map_sizes_t sizes = {.buckets = 4, .entries = 4, .seed = 0};

/* What a call is given, and what it writes to. */
static uint32_t at;
static uint64_t value;
static struct {
    uint64_t place, moved, count, values[ROOM];
    uint32_t did;
} out;

/* The allocations that are granted before one is refused; below 0 all are. The program is linked
 * with the flags in the file beside it, so that the archive's allocations come here. */
static long granted = -1;
void *__real_malloc(size_t size);
void *__real_realloc(void *block, size_t size);
void *__wrap_malloc(size_t size);
void *__wrap_realloc(void *block, size_t size);

static int is_refused(void) {
    if (granted > 0) granted--;
    else if (granted == 0) return 1;
    return 0;
}

void *__wrap_malloc(size_t size) { return is_refused() ? 0 : __real_malloc(size); }
void *__wrap_realloc(void *block, size_t size) { return is_refused() ? 0 : __real_realloc(block, size); }

static uint32_t open_engine(void) { return rcu_open(CPUS, UINT64_C(1) << 62, &rcu); }
static uint32_t open_map(void) { return rcu_open_map(CPUS, UINT64_C(1) << 62, &sizes, &rcu); }

/* A seat that is refused can still be dealt, one that is dealt can't be. */
static uint32_t open_seat(void) {
    uint32_t fault = rcu_seat_open(&rcu, at, &seats[at]);
    if (rcu_has_seat(&rcu, at) == !fault) {
        printf("seat: fault %" PRIu32 ", and the engine has it: %d\n", fault, !fault);
        exit(1);
    }
    return fault;
}

static uint32_t queue(void) { return rcu_queue(&rcu, at, value, &out.place); }
static uint32_t visit(void) { return rcu_barrier_visit(&rcu, at, &out.did); }
static uint32_t run(void) { return rcu_run(&rcu, at, out.values, MOST, &out.count); }
static uint32_t depart(void) { return rcu_depart(&rcu, &seats[at], &out.moved); }

static void must(const char *call, uint32_t fault) {
    if (fault) {
        printf("%s: fault %" PRIu32 "\n", call, fault);
        exit(1);
    }
}

/* Makes the call with each of its allocations refused, the first one first, until none is. Returns
 * how many were. */
static unsigned refuse_each(const char *name, uint32_t (*call)(void)) {
    for (unsigned refused = 0;; refused++) {
        for (unsigned i = 0; i < ROOM; i++) out.values[i] = UNTOUCHED;
        out.place = out.moved = out.count = out.did = UNTOUCHED;
        granted = refused;
        uint32_t fault = call();
        granted = -1;
        if (fault != RCU_NO_MEMORY) {
            must(name, fault);
            return refused;
        }
        int same = out.place == UNTOUCHED && out.moved == UNTOUCHED && out.count == UNTOUCHED;
        for (unsigned i = 0; i < ROOM; i++) same = same && out.values[i] == UNTOUCHED;
        if (!same || out.did != UNTOUCHED) {
            printf("%s: a refused call wrote\n", name);
            exit(1);
        }
    }
}

static void tell(const char *name, unsigned refused) {
    printf("%s: %s\n", name, refused ? "refused, then done" : "done");
}

/* A grace period, with the callbacks of processor 1 tended before and after it. */
static void pass_a_grace_period(void) {
    uint64_t number, done, waiting, seen;
    uint32_t awaited, found;
    must("tend", rcu_tend(&rcu, 1, &done, &waiting));
    must("begin", rcu_begin(&rcu, &number, &awaited));
    for (uint32_t cpu = 0; cpu < 2; cpu++) {
        must("quiesce", rcu_seat_quiesce(&seats[cpu], &seen));
        must("collect", rcu_collect(&rcu, cpu, &found));
    }
    must("end", rcu_end(&rcu, &number));
    must("tend", rcu_tend(&rcu, 1, &done, &waiting));
    printf("grace period %" PRIu64 ": %" PRIu64 " done, %" PRIu64 " wait\n", number, done, waiting);
}

/* The list gives back what it does not need: it has room for its items alone. So a second call has
 * nothing to give, and asks for no memory, and the next value wants an allocation. */
static void shrink(void) {
    uint64_t room, again;
    must("shrink", rcu_shrink(&rcu, at, &room));
    granted = 0;
    must("shrink", rcu_shrink(&rcu, at, &again));
    granted = -1;
    printf("room for %" PRIu64 ", then for %" PRIu64 "\n", room, again);
    tell("queue behind it", refuse_each("queue", queue));
}

/* A return asks for no memory, and all that a seat that was returned needs is its handle's box. */
static void return_seats(void) {
    unsigned refused = 0;
    granted = 0;
    for (uint32_t cpu = 0; cpu < CPUS; cpu++) must("return", rcu_seat_return(&rcu, &seats[cpu]));
    granted = -1;
    for (at = 0; at < CPUS; at++) refused += refuse_each("seat", open_seat);
    printf("%d seats again: %u refused\n", CPUS, refused);
}

/* No call of an open map takes memory. */
static void use_map(void) {
    uint64_t entry[] = {0, 7}, old[2], cookie;
    granted = 0;
    while (++entry[0] <= 4) must("put", rcu_map_put(&rcu, entry, 2, old, 2));
    must("remove", rcu_map_remove(&rcu, 4, old, 2));
    must("reclaim", rcu_map_reclaim(&rcu, &cookie));
    granted = -1;
    printf("entries: %" PRIu64 "\n", rcu_map_len(&rcu));
}

int main(void) {
    unsigned refused = 0;
    tell("open with a map", refuse_each("open with a map", open_map));
    use_map();
    rcu_close(&rcu);
    tell("open", refuse_each("open", open_engine));
    for (at = 0; at < CPUS; at++) refused += refuse_each("seat", open_seat);
    tell("seats", refused);
    return_seats();
    must("arrive", rcu_arrive(&rcu, &seats[1]));
    at = 1;
    for (value = 1, refused = 0; value <= VALUES; value++) refused += refuse_each("queue", queue);
    tell("queue", refused);
    must("barrier", rcu_barrier_begin(&rcu));
    for (at = 0, refused = 0; at < CPUS; at++) refused += refuse_each("visit", visit);
    tell("visits", refused);
    pass_a_grace_period();
    at = 1;
    tell("run", refuse_each("run", run));
    printf("%" PRIu64 " ran: %" PRIu64 " to %" PRIu64 "\n", out.count, out.values[0], out.values[out.count - 1]);
    printf("behind them stands %" PRIu64 "\n", out.values[out.count]);
    shrink();
    tell("depart", refuse_each("depart", depart));
    printf("%" PRIu64 " moved\n", out.moved);
    printf("the same again: fault %" PRIu32 "\n", depart());
    rcu_close(&rcu);
    for (at = 0; at < CPUS; at++) rcu_seat_close(&seats[at]);
    return 0;
}
