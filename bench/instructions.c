/* Usage: instructions OPENED ONLINE [memory | peak | CPU]
 * One grace period over the lowest processors, ONLINE of OPENED: a begin, a section, collections
 * while all are awaited, their list, a quiescent state of each, and the step of driving that hears
 * of them and ends it. With a processor CPU, it is online too; with 'peak', all that were opened
 * have been online for a grace period before, and the others departed. With 'memory' it prints how
 * many KiB the engine with these processors keeps resident, and leaves the grace period out. */
#include "rcu.h"
#include <stdio.h>
#include <stdlib.h>
#include <string.h>

static void must(uint32_t fault) {
    if (fault) {
        fprintf(stderr, "bench/instructions: fault %u\n", (unsigned)fault);
        exit(1);
    }
}

/* How many KiB of the process are resident. */
static long resident(void) {
    long size, pages = 0;
    FILE *statm = fopen("/proc/self/statm", "r");
    if (!statm || fscanf(statm, "%ld %ld", &size, &pages) != 2) exit(1);
    fclose(statm);
    return pages * 4;
}

/* The begin that is measured. */
static __attribute__((noinline)) void begin(rcu_t *rcu, uint32_t *awaited) {
    uint64_t number;
    must(rcu_begin(rcu, &number, awaited));
}

/* All processors were online for a grace period, and those from `from` on depart. */
static void pass_peak(rcu_t *rcu, rcu_seat_t *seats, uint32_t opened, uint32_t from) {
    uint64_t number, moved;
    uint32_t awaited;
    rcu_turn_t turn;
    for (uint32_t cpu = from; cpu < opened; cpu++) {
        must(rcu_seat_open(rcu, cpu, &seats[cpu]));
        must(rcu_arrive(rcu, &seats[cpu]));
    }
    must(rcu_begin(rcu, &number, &awaited));
    if (awaited != opened) exit(1);
    for (uint32_t cpu = 0; cpu < opened; cpu++) must(rcu_seat_quiesce(&seats[cpu], &number));
    must(rcu_drive(rcu, &turn));
    if (turn.what != RCU_TURN_ENDED) exit(1);
    for (uint32_t cpu = from; cpu < opened; cpu++) must(rcu_depart(rcu, &seats[cpu], &moved));
}

int main(int count, char **words) {
    if (count < 3 || count > 4) return 2;
    uint32_t opened = (uint32_t)atoi(words[1]), online = (uint32_t)atoi(words[2]), awaited, found;
    bool peak = count > 3 && strcmp(words[3], "peak") == 0;
    bool memory = count > 3 && strcmp(words[3], "memory") == 0;
    uint32_t also = count > 3 && !peak && !memory ? (uint32_t)atoi(words[3]) : 0;
    uint64_t number;
    rcu_t rcu = {0};
    rcu_turn_t turn;
    rcu_seat_t *seats = calloc(opened, sizeof *seats);
    uint32_t *cpus = calloc(opened, sizeof *cpus);
    if (!seats || !cpus) return 1;
    long before = resident();
    must(rcu_open(opened, UINT64_C(1) << 62, &rcu));
    for (uint32_t cpu = 0; cpu < online; cpu++) {
        must(rcu_seat_open(&rcu, cpu, &seats[cpu]));
        if (cpu > 0) must(rcu_arrive(&rcu, &seats[cpu]));
    }
    if (memory) return printf("%ld\n", resident() - before) < 0;
    if (peak) pass_peak(&rcu, seats, opened, online);
    if (also) {
        must(rcu_seat_open(&rcu, also, &seats[also]));
        must(rcu_arrive(&rcu, &seats[also]));
    }
    begin(&rcu, &awaited);
    online += also > 0;
    must(rcu_seat_enter(&seats[0]));
    must(rcu_seat_exit(&seats[0]));
    must(rcu_collect_all(&rcu, &found));
    if (awaited != online || found != online) return 1;
    must(rcu_awaited_list(&rcu, cpus, opened, &found));
    if (found != online) return 1;
    for (uint32_t cpu = 0; cpu < opened; cpu++)
        if (cpu + (also > 0) < online || cpu == also) must(rcu_seat_quiesce(&seats[cpu], &number));
    must(rcu_drive(&rcu, &turn));
    return turn.what == RCU_TURN_ENDED ? 0 : 1;
}
