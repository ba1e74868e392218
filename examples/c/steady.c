/* What an engine holds in memory does not grow with its age. 3,000,000 values are queued and handed
 * out, or as many as the first argument says. From the first half to the end the resident size grows
 * by less than 16 MB. (Valgrind keeps freed memory for a while, and takes most of that. The address
 * sanitizer keeps 256 MB of it.) */
#include "rcu.h"
#include <inttypes.h>
#include <stdio.h>
#include <stdlib.h>
#include <unistd.h>

#ifndef __has_feature
#define __has_feature(it) 0
#endif
#if defined(__SANITIZE_ADDRESS__) || __has_feature(address_sanitizer)
enum { KEPT = 256 << 20 };
#else
enum { KEPT = 0 };
#endif
enum { BATCH = 64, MOST_GROWN = KEPT + (16 << 20) };

static rcu_t rcu;
static rcu_seat_t seat;
static uint64_t quiet_at;

static void must(const char *call, uint32_t answer, uint32_t wanted) {
    if (answer != wanted) {
        printf("%s: %" PRIu32 " and not %" PRIu32 "\n", call, answer, wanted);
        exit(1);
    }
}

/* The resident size in bytes. */
static int64_t resident(void) {
    long all, pages;
    FILE *file = fopen("/proc/self/statm", "r");
    if (!file || fscanf(file, "%ld %ld", &all, &pages) != 2) exit(1);
    fclose(file);
    return (int64_t)pages * sysconf(_SC_PAGESIZE);
}

/* One grace period, and what it makes done is handed out. */
static uint64_t pass(void) {
    uint64_t done, waiting, count, values[BATCH];
    uint32_t found;
    rcu_turn_t turn;
    must("tend", rcu_tend(&rcu, 0, &done, &waiting), 0);
    must("turn", rcu_turn(&rcu, &turn), 0);
    must("quiesce", rcu_seat_quiesce_since(&seat, &quiet_at), 0);
    must("number", quiet_at == rcu_number(&rcu), true);
    must("quiet still", rcu_seat_quiesce_since(&seat, &quiet_at), 0);
    must("collect", rcu_collect(&rcu, 0, &found), 0);
    must("turn", rcu_turn(&rcu, &turn), 0);
    must("run", rcu_run(&rcu, 0, values, BATCH, &count), 0);
    return count;
}

/* Queues values and hands them out. Answers how many were handed out. */
static uint64_t work(uint64_t values) {
    uint64_t queued, handed = 0;
    for (uint64_t value = 0; value < values; value += BATCH) {
        for (uint64_t i = 0; i < BATCH; i++)
            must("queue", rcu_queue(&rcu, 0, value + i, &queued), 0);
        handed += pass();
    }
    return handed;
}

int main(int count, char **words) {
    uint64_t half = (count > 1 ? strtoull(words[1], 0, 10) : 3000000) / 2, handed;
    must("open", rcu_open(1, UINT64_C(1) << 62, &rcu), 0);
    must("seat", rcu_seat_open(&rcu, 0, &seat), 0);
    handed = work(half);
    int64_t before = resident();
    handed += work(half);
    int64_t grown = resident() - before;
    for (int i = 0; i < 3; i++) handed += pass();
    printf("handed out %s, %s\n", handed >= 2 * half ? "all" : "too few",
           grown < MOST_GROWN ? "memory is steady" : "memory grows");
    if (count > 1) printf("%" PRIu64 " values, grown by %" PRId64 " bytes\n", handed, grown);
    rcu_close(&rcu);
    rcu_seat_close(&seat);
    return 0;
}
