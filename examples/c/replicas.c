/* Two machines of one cluster, each with a replica: a grace period ends on both once each heard of
 * all processors, whichever messages came to which of them first, and however often. */
#include <inttypes.h>
#include <stdio.h>
#include <stdlib.h>

#include "rcu/replica.h"

#define CPUS 100

static void must(uint32_t fault, const char *call)
{
    if (fault != 0) {
        fprintf(stderr, "%s: fault %" PRIu32 "\n", call, fault);
        exit(1);
    }
}

static void print_awaited(rcu_replica_t *replica, const char *name)
{
    uint32_t cpus[CPUS], count = 0;
    must(rcu_replica_awaited(replica, cpus, CPUS, &count), "rcu_replica_awaited");
    printf("%s awaits", name);
    for (uint32_t i = 0; i < count; i++)
        printf(" %" PRIu32, cpus[i]);
    printf("%s\n", count == 0 ? " nobody" : "");
}

int main(void)
{
    rcu_replica_t here = {0}, there = {0};
    /* The begin awaits processors 0, 7, 64 and 99, a bit each in words of 64. */
    const uint64_t set[] = {1u | 1u << 7, 1u | UINT64_C(1) << (99 - 64)};
    uint64_t number = 0, other = 0;
    uint32_t answer = 0;

    must(rcu_replica_open(CPUS, UINT64_C(1) << 62, &here), "rcu_replica_open");
    must(rcu_replica_open(CPUS, UINT64_C(1) << 62, &there), "rcu_replica_open");
    must(rcu_replica_begin(&here, set, 2, &number), "rcu_replica_begin");
    must(rcu_replica_begin(&there, set, 2, &other), "rcu_replica_begin");
    printf("begun %" PRIu64 " and %" PRIu64 "\n", number, other);
    print_awaited(&here, "here");

    must(rcu_replica_report(&here, 7, number, &answer), "rcu_replica_report");
    must(rcu_replica_report(&there, 99, number, &answer), "rcu_replica_report");
    must(rcu_replica_report(&there, 99, number, &answer), "rcu_replica_report");
    printf("a report that comes twice: %s\n", answer == RCU_ANSWER_REPEAT ? "repeat" : "taken");
    must(rcu_replica_report(&there, 64, number + 4, &answer), "rcu_replica_report");
    printf("one of another number: %s\n", answer == RCU_ANSWER_STALE ? "stale" : "taken");
    must(rcu_replica_depart(&there, 64), "rcu_replica_depart");
    must(rcu_replica_merge(&here, &there), "rcu_replica_merge");
    print_awaited(&here, "here");

    printf("an end too early: fault %" PRIu32 "\n", rcu_replica_end(&here, &other));
    must(rcu_replica_report(&here, 0, number, &answer), "rcu_replica_report");
    printf("the last report: %s\n", answer == RCU_ANSWER_LAST ? "last" : "taken");
    must(rcu_replica_end(&here, &other), "rcu_replica_end");
    must(rcu_replica_merge(&there, &here), "rcu_replica_merge");
    print_awaited(&there, "there");
    must(rcu_replica_end(&there, &other), "rcu_replica_end");
    printf("ended %" PRIu64 "\n", other);
    rcu_replica_close(&here);
    rcu_replica_close(&there);
    return 0;
}
