/* One thread drives an engine with two processors: a grace period, callbacks and a barrier. */
#include "rcu.h"
#include <inttypes.h>
#include <stdio.h>
#include <stdlib.h>

static rcu_t rcu;
static rcu_seat_t seats[2];

/* Ends the program where a call returns something else than it has to. */
static void must(const char *call, uint32_t answer, uint32_t wanted) {
    if (answer != wanted) {
        printf("%s: %" PRIu32 " and not %" PRIu32 "\n", call, answer, wanted);
        exit(1);
    }
}

/* Both processors pass a quiescent state, and the engine hears of it. */
static void all_quiet(void) {
    uint64_t seen;
    uint32_t found;
    for (uint32_t cpu = 0; cpu < 2; cpu++) {
        must("quiesce", rcu_seat_quiesce(&seats[cpu], &seen), 0);
        must("collect", rcu_collect(&rcu, cpu, &found), 0);
        printf("processor %" PRIu32 " is quiet: %s\n", cpu,
               found == RCU_COLLECTED_LAST ? "the last one" : "taken");
    }
}

static void open_all(void) {
    uint64_t max_number = UINT64_C(1) << 62;
    must("open for nobody", rcu_open(0, max_number, &rcu), RCU_TOO_MANY_CPUS);
    must("open at 3", rcu_open(2, 3, &rcu), RCU_BAD_LAST);
    must("open", rcu_open(2, max_number, &rcu), 0);
    for (uint32_t cpu = 0; cpu < 2; cpu++)
        must("seat", rcu_seat_open(&rcu, cpu, &seats[cpu]), 0);
    rcu_seat_t third = {0};
    must("a seat again", rcu_seat_open(&rcu, 1, &third), RCU_SEAT_DEALT);
    must("a seat of no processor", rcu_seat_open(&rcu, 2, &third), RCU_BAD_CPU);
    must("arrive", rcu_arrive(&rcu, &seats[1]), 0);
    must("arrive again", rcu_arrive(&rcu, &seats[1]), RCU_ALREADY_ONLINE);
    printf("open: %" PRIu32 " processors, number %" PRIu64 "\n", rcu_cpus(&rcu), rcu_number(&rcu));
}

static const char *yes_or_no(bool answer) { return answer ? "yes" : "no"; }

/* What the engine says of itself and of processor 1. */
static void tell(void) {
    printf("runs: %s, online: %s, awaited: %s, awaited in all: %" PRIu32 "\n",
           yes_or_no(rcu_running(&rcu)), yes_or_no(rcu_online(&rcu, rcu_seat_cpu(&seats[1]))),
           yes_or_no(rcu_awaits(&rcu, rcu_seat_cpu(&seats[1]))), rcu_awaited(&rcu));
}

static void a_grace_period(void) {
    uint64_t number, seen;
    uint32_t awaited, found;
    must("enter", rcu_seat_enter(&seats[1]), 0);
    uint64_t cookie = rcu_seat_take(&seats[0]), same = rcu_take(&rcu), later;
    tell();
    must("begin", rcu_begin(&rcu, &number, &awaited), 0);
    printf("begun %" PRIu64 ", awaits %" PRIu32 "\n", number, awaited);
    tell();
    later = rcu_take(&rcu);
    must("begin again", rcu_begin(&rcu, &number, &awaited), RCU_RUNNING);
    must("quiet inside", rcu_seat_quiesce(&seats[1], &seen), RCU_IN_SECTION);
    must("collect", rcu_collect(&rcu, 1, &found), 0);
    printf("processor 1 reads: %s\n", found == RCU_COLLECTED_NOT_YET ? "not yet" : "?");
    must("exit", rcu_seat_exit(&seats[1]), 0);
    all_quiet();
    printf("cookie %" PRIu64 " is %s\n", cookie, rcu_seat_poll(&seats[0], cookie) ? "done" : "not done");
    must("end", rcu_end(&rcu, &number), 0);
    printf("ended %" PRIu64 "\n", number);
    printf("cookie %" PRIu64 " is %s\n", cookie, rcu_seat_poll(&seats[0], cookie) ? "done" : "not done");
    printf("cookie %" PRIu64 " of the engine is done: %s, %" PRIu64 ": %s\n", same,
           yes_or_no(rcu_poll(&rcu, same)), later, yes_or_no(rcu_poll(&rcu, later)));
    tell();
}

static void callbacks(void) {
    uint64_t place, done, waiting, values[4], count, left, moved;
    uint32_t did;
    rcu_turn_t turn;
    must("queue", rcu_queue(&rcu, 1, 77, &place), 0);
    must("queue", rcu_queue(&rcu, 1, 78, &place), 0);
    must("tend", rcu_tend(&rcu, 1, &done, &waiting), 0);
    printf("queued %" PRIu64 ", waiting %" PRIu64 "\n", place, waiting);
    must("barrier", rcu_barrier_begin(&rcu), 0);
    for (uint32_t cpu = 0; cpu < 2; cpu++)
        must("visit", rcu_barrier_visit(&rcu, cpu, &did), 0);
    must("turn", rcu_turn(&rcu, &turn), 0);
    printf("begun %" PRIu64 ", awaits %" PRIu32 "\n", turn.number, turn.awaited);
    all_quiet();
    must("turn", rcu_turn(&rcu, &turn), 0);
    printf("ended %" PRIu64 "\n", turn.number);
    must("tend", rcu_tend(&rcu, 1, &done, &waiting), 0);
    must("run", rcu_run(&rcu, 1, values, 1, &count), 0);
    printf("ran %" PRIu64 ": %" PRIu64 "\n", count, values[0]);
    must("test", rcu_barrier_test(&rcu, &left), 0);
    printf("the barrier waits for %" PRIu64 "\n", left);
    must("depart", rcu_depart(&rcu, &seats[1], &moved), 0);
    printf("moved %" PRIu64 "\n", moved);
    must("run", rcu_run(&rcu, 0, values, 4, &count), 0);
    printf("ran %" PRIu64 ": %" PRIu64 "\n", count, values[0]);
    must("test", rcu_barrier_test(&rcu, &left), 0);
    printf("the barrier waits for %" PRIu64 "\n", left);
    must("shrink nowhere", rcu_shrink(&rcu, 2, &left), RCU_BAD_CPU);
    must("queue", rcu_queue(&rcu, 0, 79, &place), 0);
    must("shrink", rcu_shrink(&rcu, 0, &left), 0);
    printf("room for what is queued: %s\n", yes_or_no(left >= 1));
    must("shrink", rcu_shrink(&rcu, 1, &left), 0);
    printf("room of an empty list: %" PRIu64 "\n", left);
}

/* An engine takes no seat of another one, also where that is closed, and it lies in its place. */
static void another_engine(void) {
    rcu_t other = {0};
    rcu_seat_t seat = {0};
    uint64_t moved;
    must("open another", rcu_open(2, 8, &other), 0);
    must("arrive elsewhere", rcu_arrive(&other, &seats[1]), RCU_OTHER_ENGINE);
    must("depart elsewhere", rcu_depart(&other, &seats[1], &moved), RCU_OTHER_ENGINE);
    must("return elsewhere", rcu_seat_return(&other, &seats[1]), RCU_OTHER_ENGINE);
    must("online elsewhere", rcu_online(&other, 1), false);
    must("its own seat", rcu_seat_open(&other, 1, &seat), 0);
    rcu_close(&other);
    must("open again", rcu_open(2, 8, &other), 0);
    must("arrive too late", rcu_arrive(&other, &seat), RCU_OTHER_ENGINE);
    rcu_seat_close(&seat);
    must("its seat now", rcu_seat_open(&other, 1, &seat), 0);
    must("arrive at its own", rcu_arrive(&other, &seat), 0);
    must("return", rcu_seat_return(&other, &seat), 0);
    rcu_close(&other);
    printf("closed: %s\n", yes_or_no(!other.at && !seat.at));
}

int main(void) {
    open_all();
    another_engine();
    a_grace_period();
    callbacks();
    rcu_close(&rcu);
    rcu_seat_close(&seats[0]);
    rcu_seat_close(&seats[1]);
    return 0;
}
