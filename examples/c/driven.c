/* One thread drives an engine by steps: a grace period that a cookie asks for; requests for some; a
 * sleep until a processor is quiet; sections that are pinned and renewed; links and values that a
 * seat defers, and what a departure and a return leave of them. */
#include "rcu.h"
#include <inttypes.h>
#include <stdio.h>
#include <stdlib.h>

static rcu_t rcu;
static rcu_seat_t seats[2];

/* Ends the program where a call returns something else than it has to. */
static void must(const char *call, uint32_t answer, uint32_t wanted) {
    if (answer != wanted) {
        printf("%s: %" PRIu32 " and not %" PRIu32 "\n", call, answer, wanted);
        exit(1);
    }
}

static const char *yes_or_no(bool answer) { return answer ? "yes" : "no"; }

/* One step of driving, and what it did. */
static void drive(void) {
    static const char *const did[] = {"nothing", "begun", "ended", "waits"};
    rcu_turn_t turn;
    must("drive", rcu_drive(&rcu, &turn), 0);
    printf("driven: %s, awaits %" PRIu32 ", number %" PRIu64 "\n", did[turn.what], turn.awaited,
           turn.number);
}

/* A grace period by steps of driving, which a cookie asks for; and another one for who waits. */
static void driven(void) {
    uint64_t seen, cookie = rcu_start_poll(&rcu);
    uint32_t cpus[2] = {9, 9}, count, left;
    rcu_turn_t turn;
    drive();
    must("list", rcu_awaited_list(&rcu, cpus, 1, &count), 0);
    printf("listed %" PRIu32 ": %" PRIu32 ", and %" PRIu32 " stays\n", count, cpus[0], cpus[1]);
    must("quiesce", rcu_seat_quiesce(&seats[0], &seen), 0);
    must("collect", rcu_collect_all(&rcu, &left), 0);
    must("list", rcu_awaited_list(&rcu, cpus, 2, &count), 0);
    printf("left %" PRIu32 ", listed %" PRIu32 ": %" PRIu32 "\n", left, count, cpus[0]);
    drive();
    must("quiesce", rcu_seat_quiesce(&seats[1], &seen), 0);
    drive();
    printf("cookie %" PRIu64 " is done: %s\n", cookie, yes_or_no(rcu_poll(&rcu, cookie)));
    drive();
    cookie = rcu_seat_take(&seats[1]);
    for (uint32_t cpu = 0; cpu < 2; cpu++) must("idle", rcu_seat_idle(&seats[cpu]), 0);
    must("drive", rcu_drive_for(&rcu, cookie, &turn), 0);
    printf("driven for it at once: %s\n", yes_or_no(turn.what == RCU_TURN_ENDED));
}

static uint32_t request(uint32_t cpu, uint64_t cookie) {
    uint32_t wakes = 9;
    must("request", rcu_seat_request_gp(&seats[cpu], cookie, &wakes), 0);
    return wakes;
}

static uint64_t requested(bool sleeps) {
    uint64_t cookie = 0;
    must("requested", rcu_requested_gp(&rcu, sleeps, &cookie), 0);
    return cookie;
}

/* Two threads request grace periods, with no lock: who requests a later one than all before
 * wakes who drives, where that sleeps. */
static void requests(void) {
    printf("none requested: %" PRIu64 "\n", requested(true));
    uint32_t first = request(1, 8), same = request(0, 8), later = request(0, 12);
    printf("wakes: %" PRIu32 ", %" PRIu32 ", %" PRIu32 "\n", first, same, later);
    printf("requested: %" PRIu64 "\n", requested(false));
    uint32_t awake = request(1, 16), less = request(1, 12);
    printf("wakes: %" PRIu32 ", %" PRIu32 "; requested: %" PRIu64 "\n", awake, less,
           requested(true));
}

static uint32_t should_wake(uint32_t cpu) {
    uint32_t it = 9;
    must("should wake", rcu_seat_should_wake_driver(&seats[cpu], &it), 0);
    return it;
}

/* Who drives says for which processor it sleeps: the first that is awaited, which wakes it. */
static void prepare_wait(void) {
    uint32_t sleeps = 9, left = 9;
    must("prepare wait", rcu_driver_prepare_wait(&rcu, &sleeps, &left), 0);
    printf("sleeps: %" PRIu32 ", left %" PRIu32 ", wakes: %" PRIu32 ", %" PRIu32 "\n", sleeps, left,
           should_wake(0), should_wake(1));
}

static void slept(void) {
    uint64_t number, seen;
    uint32_t awaited;
    for (uint32_t cpu = 0; cpu < 2; cpu++) must("wake", rcu_seat_wake(&seats[cpu], &seen), 0);
    prepare_wait();
    must("begin", rcu_begin(&rcu, &number, &awaited), 0);
    prepare_wait();
    must("quiesce", rcu_seat_quiesce(&seats[0], &seen), 0);
    prepare_wait();
    prepare_wait();
    must("quiesce", rcu_seat_quiesce(&seats[1], &seen), 0);
    prepare_wait();
    must("end", rcu_end(&rcu, &number), 0);
    for (uint32_t cpu = 0; cpu < 2; cpu++) must("idle", rcu_seat_idle(&seats[cpu]), 0);
}

/* Sections of a thread that is idle between them, and sections that are renewed. */
static void pinned(void) {
    uint64_t seen = 0;
    must("enter idle", rcu_seat_enter(&seats[1]), RCU_CPU_IDLE);
    must("renew idle", rcu_seat_renew(&seats[1], &seen), RCU_CPU_IDLE);
    must("repin idle", rcu_seat_repin(&seats[1], &seen), RCU_NOT_OPEN);
    must("unpin idle", rcu_seat_unpin(&seats[1]), RCU_NOT_OPEN);
    must("pin", rcu_seat_pin(&seats[1]), 0);
    must("pin", rcu_seat_pin(&seats[1]), 0);
    must("repin nested", rcu_seat_repin(&seats[1], &seen), RCU_IN_SECTION);
    must("renew nested", rcu_seat_renew(&seats[1], &seen), RCU_IN_SECTION);
    printf("pinned %" PRIu32 " deep", rcu_seat_depth(&seats[1]));
    must("unpin", rcu_seat_unpin(&seats[1]), 0);
    must("repin", rcu_seat_repin(&seats[1], &seen), 0);
    must("renew", rcu_seat_renew(&seats[1], &seen), 0);
    printf(", renewed at %" PRIu64, seen);
    must("unpin", rcu_seat_unpin(&seats[1]), 0);
    printf(", idle: %s\n", yes_or_no(rcu_seat_is_idle(&seats[1])));
    for (uint32_t cpu = 0; cpu < 2; cpu++) must("wake", rcu_seat_wake(&seats[cpu], &seen), 0);
    must("renew outside", rcu_seat_renew(&seats[1], &seen), RCU_NOT_OPEN);
}

/* A grace period for the cookie, of which both processors hear. */
static void drive_for(uint64_t cookie) {
    rcu_turn_t turn;
    uint64_t seen;
    do {
        must("drive", rcu_drive_for(&rcu, cookie, &turn), 0);
        for (int cpu = 0; cpu < 2 && turn.what == RCU_TURN_BEGUN; cpu++)
            must("quiesce", rcu_seat_quiesce(&seats[cpu], &seen), 0);
    } while (turn.what != RCU_TURN_ENDED);
    printf("ended %" PRIu64 "\n", turn.number);
}

static void take_all(void) {
    unsigned taken = 0;
    while (rcu_defer_take(&seats[1])) taken++;
    printf("took %u, left %" PRIu64 ", cookie %" PRIu64 "\n", taken, rcu_defer_count(&seats[1]),
           rcu_defer_cookie(&seats[1]));
}

/* Links in the caller's nodes: two that wait since the first look, and one since the second. */
static void links(void) {
    rcu_link_t nodes[3];
    must("defer", rcu_defer_link(&seats[1], &nodes[0]), 0);
    must("defer", rcu_defer_link(&seats[1], &nodes[1]), 0);
    take_all();
    must("defer", rcu_defer_link(&seats[1], &nodes[2]), 0);
    drive_for(rcu_defer_cookie(&seats[1]));
    must("the first link", rcu_defer_take(&seats[1]) == &nodes[0], true);
    take_all();
    drive_for(rcu_defer_cookie(&seats[1]));
    must("the last link", rcu_defer_take(&seats[1]) == &nodes[2], true);
    take_all();
}

/* Values, two at a time; the rest goes with the seat to who has it next. */
static void values(void) {
    uint64_t out[2] = {0}, count, room, moved;
    for (uint64_t value = 7; value <= 9; value++) must("defer", rcu_defer(&seats[1], value), 0);
    must("shrink", rcu_defer_shrink(&seats[1], &room), 0);
    printf("room of three values: %" PRIu64 "\n", room);
    must("run", rcu_defer_run(&seats[1], out, 2, &count), 0);
    printf("run %" PRIu64 " of %" PRIu64 "\n", count, rcu_defer_count(&seats[1]));
    must("depart", rcu_depart(&rcu, &seats[1], &moved), 0);
    must("idle", rcu_seat_idle(&seats[0]), 0);
    drive_for(rcu_defer_cookie(&seats[1]));
    must("run", rcu_defer_run(&seats[1], out, 2, &count), 0);
    printf("run %" PRIu64 ": %" PRIu64 ", %" PRIu64 "\n", count, out[0], out[1]);
    must("return", rcu_seat_return(&rcu, &seats[1]), 0);
    printf("of a closed seat: %" PRIu64 "\n", rcu_defer_count(&seats[1]));
    must("seat", rcu_seat_open(&rcu, 1, &seats[1]), 0);
    must("run", rcu_defer_run(&seats[1], out, 2, &count), 0);
    printf("run by the next owner %" PRIu64 ": %" PRIu64 ", and %" PRIu64 " stays\n", count, out[0],
           out[1]);
    must("shrink", rcu_defer_shrink(&seats[1], &room), 0);
    printf("room of no value: %" PRIu64 "\n", room);
}

int main(void) {
    must("open", rcu_open(2, UINT64_C(1) << 62, &rcu), 0);
    for (uint32_t cpu = 0; cpu < 2; cpu++)
        must("seat", rcu_seat_open(&rcu, cpu, &seats[cpu]), 0);
    must("arrive", rcu_arrive(&rcu, &seats[1]), 0);
    driven();
    requests();
    slept();
    pinned();
    links();
    values();
    rcu_close(&rcu);
    for (uint32_t cpu = 0; cpu < 2; cpu++) rcu_seat_close(&seats[cpu]);
    return 0;
}
