/* Grace periods of engines with few processors online of many, on one thread: whom each awaits, and
 * what collections leave. */
#include "rcu.h"
#include <stdio.h>
#include <stdlib.h>

static void must(uint32_t fault) {
    if (fault) {
        printf("%s\n", rcu_fault_text(fault));
        exit(1);
    }
}

/* Prints whom the running grace period awaits. */
static void print_awaited(rcu_t *rcu, const char *when) {
    static uint32_t cpus[4096];
    uint32_t count;
    must(rcu_awaited_list(rcu, cpus, 4096, &count));
    printf("  %s:", when);
    for (uint32_t i = 0; i < count; i++) printf(" %u", (unsigned)cpus[i]);
    printf("\n");
}

static void quiesce(rcu_seat_t *seat) {
    uint64_t number;
    must(rcu_seat_quiesce(seat, &number));
}

static void drive(rcu_t *rcu) {
    rcu_turn_t turn;
    (void)rcu_start_poll(rcu);
    must(rcu_drive(rcu, &turn));
    printf("  drive: %u, awaited %u\n", (unsigned)turn.what, (unsigned)turn.awaited);
}

int main(void) {
    static const uint32_t WIDTHS[] = {1, 63, 64, 65, 128, 4096};
    static rcu_seat_t seats[4096];
    for (size_t at = 0; at < sizeof WIDTHS / sizeof *WIDTHS; at++) {
        const uint32_t cpus = WIDTHS[at], last = cpus - 1;
        const uint32_t wanted[] = {1, 62, 63, 64, 65, 127, last};
        uint32_t online[8] = {0}, many = 1, left;
        rcu_t rcu = {0};
        must(rcu_open(cpus, UINT64_C(1) << 62, &rcu));
        printf("%u processors\n", (unsigned)cpus);
        must(rcu_seat_open(&rcu, 0, &seats[0]));
        for (size_t i = 0; i < sizeof wanted / sizeof *wanted; i++) {
            const uint32_t cpu = wanted[i];
            if (cpu > last || !rcu_has_seat(&rcu, cpu)) continue;
            must(rcu_seat_open(&rcu, cpu, &seats[cpu]));
            must(rcu_arrive(&rcu, &seats[cpu]));
            online[many++] = cpu;
        }
        drive(&rcu);
        print_awaited(&rcu, "at first");
        quiesce(&seats[last]);
        must(rcu_collect_all(&rcu, &left));
        print_awaited(&rcu, "without the last one");
        if (left != many - 1) printf("  %u are left\n", (unsigned)left);
        for (uint32_t i = 0; i < many; i++) quiesce(&seats[online[i]]);
        drive(&rcu);
        must(rcu_seat_idle(&seats[last]));
        drive(&rcu);
        print_awaited(&rcu, "where the last one is idle");
        for (uint32_t i = 0; i + 1 < many; i++) quiesce(&seats[online[i]]);
        if (last > 0) drive(&rcu);
        for (uint32_t i = 1; i < many; i++) {
            uint64_t moved;
            must(rcu_depart(&rcu, &seats[online[i]], &moved));
        }
        if (last > 0) drive(&rcu);
        print_awaited(&rcu, "alone");
        for (uint32_t i = 0; i < many; i++) rcu_seat_close(&seats[online[i]]);
        rcu_close(&rcu);
    }
    return 0;
}
