/* The names that calls had in 0.2.0: a program that was written with them compiles, with a warning
 * for each, and does what it did. */
#include "rcu/map.h"
#include <inttypes.h>
#include <stdio.h>
#include <stdlib.h>

static rcu_t rcu;
static rcu_seat_t seat;

static void must(const char *call, uint32_t fault) {
    if (fault) fprintf(stderr, "%s: %s\n", call, rcu_fault_text(fault));
    if (fault) abort();
}

/* Requests a grace period while the driver sleeps, which finds the request. */
static void request(void) {
    uint64_t cookie = 0;
    uint32_t wakes = 9;
    must("rcu_wanted", rcu_wanted(&rcu, true, &cookie));
    must("rcu_seat_want", rcu_seat_want(&seat, 8, &wakes));
    must("rcu_wanted", rcu_wanted(&rcu, false, &cookie));
    printf("requested: %" PRIu64 ", wakes: %" PRIu32 "\n", cookie, wakes);
}

/* No grace period runs, so the driver waits for no processor. */
static void prepare_wait(void) {
    uint32_t sleeps = 9, left = 9, wakes = 9;
    must("rcu_may_sleep", rcu_may_sleep(&rcu, &sleeps, &left));
    must("rcu_seat_wakes", rcu_seat_wakes(&seat, &wakes));
    printf("sleeps: %" PRIu32 ", left %" PRIu32 ", wakes: %" PRIu32 "\n", sleeps, left, wakes);
}

/* Removes an entry, whose node is free again a grace period later. */
static void reclaim(void) {
    const uint64_t entry[] = {1, 10};
    uint64_t old[2], before, after;
    rcu_turn_t turn;
    must("rcu_map_insert", rcu_map_insert(&rcu, entry, 2, old, 2));
    must("rcu_map_remove", rcu_map_remove(&rcu, 1, old, 2));
    must("rcu_map_age", rcu_map_age(&rcu, &before));
    while (!rcu_poll(&rcu, before)) must("rcu_drive_for", rcu_drive_for(&rcu, before, &turn));
    must("rcu_map_age", rcu_map_age(&rcu, &after));
    must("rcu_map_insert", rcu_map_insert(&rcu, entry, 2, old, 2));
    printf("a grace period later there is room: %" PRIu64 "\n", rcu_map_len(&rcu));
}

int main(void) {
    const rcu_map_sizes_t sizes = {.buckets = 1, .entries = 1, .words = 2, .seed = 1};
    must("rcu_open_map", rcu_open_map(1, UINT64_C(1) << 62, &sizes, &rcu));
    must("rcu_seat_open", rcu_seat_open(&rcu, 0, &seat));
    request();
    prepare_wait();
    must("rcu_seat_idle", rcu_seat_idle(&seat));
    reclaim();
    rcu_seat_close(&seat);
    rcu_close(&rcu);
    return 0;
}
