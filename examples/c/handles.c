/* Each call is made on handles that it does not take: on some that were never opened, on closed
 * ones, and on those of the other kind. It is refused, or says no, and nothing changes. */
#include "rcu/map.h"
#include <inttypes.h>
#include <stdio.h>
#include <stdlib.h>
#include <string.h>

/* What the calls write to: a refused one leaves it. */
static struct {
    uint64_t number, other, values[2];
    uint32_t found, left, cpus[2];
    rcu_turn_t turn;
} out, kept;

/* An engine with a seat that is dealt, both open. */
static rcu_t rcu;
static rcu_seat_t seat;
static unsigned tried;
static const uint64_t entry[2] = {7, 8};

static void must(const char *call, uint64_t answer, uint64_t wanted) {
    if (answer != wanted || memcmp(&out, &kept, sizeof out) != 0) {
        printf("%s: %" PRIu64 " and not %" PRIu64 ", or it wrote\n", call, answer, wanted);
        exit(1);
    }
    tried++;
}

/* Each call of an engine's handle, on one that is no open engine's: `fault` says why. */
static void refuse_engine(rcu_t *none, uint32_t fault) {
    unsigned char *at = none->at;
    rcu_seat_t closed = {0};
    must("rcu_seat_open", rcu_seat_open(none, 0, &closed), fault);
    must("rcu_has_seat", rcu_has_seat(none, 0), false);
    must("rcu_seat_return", rcu_seat_return(none, &seat), fault);
    must("rcu_begin", rcu_begin(none, &out.number, &out.found), fault);
    must("rcu_end", rcu_end(none, &out.number), fault);
    must("rcu_turn", rcu_turn(none, &out.turn), fault);
    must("rcu_drive", rcu_drive(none, &out.turn), fault);
    must("rcu_drive_for", rcu_drive_for(none, 8, &out.turn), fault);
    must("rcu_requested_gp", rcu_requested_gp(none, true, &out.number), fault);
    must("rcu_driver_prepare_wait", rcu_driver_prepare_wait(none, &out.found, &out.left), fault);
    must("rcu_collect", rcu_collect(none, 0, &out.found), fault);
    must("rcu_collect_all", rcu_collect_all(none, &out.found), fault);
    must("rcu_arrive", rcu_arrive(none, &seat), fault);
    must("rcu_depart", rcu_depart(none, &seat, &out.number), fault);
    must("rcu_cpus", rcu_cpus(none), 0);
    must("rcu_number", rcu_number(none), 0);
    must("rcu_running", rcu_running(none), false);
    must("rcu_online", rcu_online(none, 0), false);
    must("rcu_awaits", rcu_awaits(none, 0), false);
    must("rcu_awaited", rcu_awaited(none), 0);
    must("rcu_awaited_list", rcu_awaited_list(none, out.cpus, 2, &out.found), fault);
    must("rcu_take", rcu_take(none), UINT64_MAX);
    must("rcu_start_poll", rcu_start_poll(none), UINT64_MAX);
    must("rcu_poll", rcu_poll(none, 0), false);
    must("rcu_queue", rcu_queue(none, 0, 7, &out.number), fault);
    must("rcu_tend", rcu_tend(none, 0, &out.number, &out.other), fault);
    must("rcu_run", rcu_run(none, 0, out.values, 2, &out.number), fault);
    must("rcu_shrink", rcu_shrink(none, 0, &out.number), fault);
    must("rcu_barrier_begin", rcu_barrier_begin(none), fault);
    must("rcu_barrier_visit", rcu_barrier_visit(none, 0, &out.found), fault);
    must("rcu_barrier_test", rcu_barrier_test(none, &out.number), fault);
    must("rcu_barrier_wait", rcu_barrier_wait(none, &out.number), fault);
    must("rcu_map_insert", rcu_map_insert(none, entry, 2, out.values, 2), fault);
    must("rcu_map_replace", rcu_map_replace(none, entry, 2, out.values, 2), fault);
    must("rcu_map_put", rcu_map_put(none, entry, 2, out.values, 2), fault);
    must("rcu_map_remove", rcu_map_remove(none, 7, out.values, 2), fault);
    must("rcu_map_find", rcu_map_find(none, 7, out.values, 2), fault);
    must("rcu_map_compare_replace", rcu_map_compare_replace(none, entry, 2, out.values, 2), fault);
    must("rcu_map_compare_remove", rcu_map_compare_remove(none, out.values, 2), fault);
    must("rcu_map_len", rcu_map_len(none), 0);
    must("rcu_map_reclaim", rcu_map_reclaim(none, &out.number), fault);
    must("rcu_map_wait", rcu_map_wait(none), fault);
    must("rcu_seat_map_wait", rcu_seat_map_wait(none, &seat), fault);
    rcu_close(none);
    must("rcu_close", none->at == at && !closed.at, true);
}

/* Each call of a seat's handle, on one that is no open seat's. */
static void refuse_seat(rcu_seat_t *none, uint32_t fault) {
    unsigned char *at = none->at;
    rcu_link_t link = {&link, 0};
    must("rcu_seat_return", rcu_seat_return(&rcu, none), fault);
    must("rcu_arrive", rcu_arrive(&rcu, none), fault);
    must("rcu_depart", rcu_depart(&rcu, none, &out.number), fault);
    must("rcu_seat_cpu", rcu_seat_cpu(none), UINT32_MAX);
    must("rcu_seat_depth", rcu_seat_depth(none), 0);
    must("rcu_seat_is_online", rcu_seat_is_online(none), false);
    must("rcu_seat_is_idle", rcu_seat_is_idle(none), false);
    must("rcu_seat_enter", rcu_seat_enter(none), fault);
    must("rcu_seat_exit", rcu_seat_exit(none), fault);
    must("rcu_seat_quiesce", rcu_seat_quiesce(none, &out.number), fault);
    must("rcu_seat_quiesce_since", rcu_seat_quiesce_since(none, &out.number), fault);
    must("rcu_seat_renew", rcu_seat_renew(none, &out.number), fault);
    must("rcu_seat_pin", rcu_seat_pin(none), fault);
    must("rcu_seat_unpin", rcu_seat_unpin(none), fault);
    must("rcu_seat_repin", rcu_seat_repin(none, &out.number), fault);
    must("rcu_seat_idle", rcu_seat_idle(none), fault);
    must("rcu_seat_wake", rcu_seat_wake(none, &out.number), fault);
    must("rcu_seat_take", rcu_seat_take(none), UINT64_MAX);
    must("rcu_seat_poll", rcu_seat_poll(none, 0), false);
    must("rcu_seat_request_gp", rcu_seat_request_gp(none, 8, &out.found), fault);
    must("rcu_seat_should_wake_driver", rcu_seat_should_wake_driver(none, &out.found), fault);
    must("rcu_defer", rcu_defer(none, 7), fault);
    must("rcu_defer_run", rcu_defer_run(none, out.values, 2, &out.number), fault);
    must("rcu_defer_shrink", rcu_defer_shrink(none, &out.number), fault);
    must("rcu_defer_count", rcu_defer_count(none), 0);
    must("rcu_defer_cookie", rcu_defer_cookie(none), 1);
    must("rcu_links_push", rcu_links_push(none, 7, &out.number), fault);
    must("rcu_links_ready", rcu_links_ready(none), 0);
    must("rcu_links_tend", rcu_links_tend(none), 0);
    must("rcu_links_pop", rcu_links_pop(none, 7), false);
    must("rcu_defer_link", rcu_defer_link(none, &link), fault);
    must("rcu_defer_take", rcu_defer_take(none) != 0 || link.next != &link, false);
    must("rcu_seat_map_wait", rcu_seat_map_wait(&rcu, none), fault);
    must("rcu_map_get", rcu_map_get(none, 7, out.values, 2), fault);
    must("rcu_map_next", rcu_map_next(none, 7, out.values, 2), fault);
    rcu_seat_close(none);
    must("rcu_seat_close", none->at == at, true);
}

/* The open engine and its seat are as they were. */
static void look(void) {
    must("the engine's processors", rcu_cpus(&rcu), 2);
    must("its number", rcu_number(&rcu), 1);
    must("whom it awaits", rcu_awaited(&rcu), 1);
    must("whether it has the seat", rcu_has_seat(&rcu, 0), false);
    must("what a cookie is", rcu_take(&rcu), 8);
    must("the other cookie", rcu_poll(&rcu, UINT64_MAX), false);
    must("the seat's processor", rcu_seat_cpu(&seat), 0);
    must("its section", rcu_seat_depth(&seat), 1);
    must("whether it is online", rcu_seat_is_online(&seat), true);
    must("its poll", rcu_seat_poll(&seat, UINT64_MAX), false);
}

static void tell(const char *handles) {
    printf("%s: %u calls\n", handles, tried);
    tried = 0;
}

/* An engine and a seat of it, both open, while a grace period runs and awaits the seat's section. */
static void open_all(void) {
    uint64_t number;
    uint32_t awaited;
    must("rcu_open", rcu_open(2, UINT64_C(1) << 62, &rcu), 0);
    must("rcu_seat_open", rcu_seat_open(&rcu, 0, &seat), 0);
    must("rcu_seat_enter", rcu_seat_enter(&seat), 0);
    must("rcu_begin", rcu_begin(&rcu, &number, &awaited), 0);
}

int main(void) {
    rcu_t engine = {0};
    rcu_seat_t place = {0};
    open_all();
    tried = 0;
    refuse_engine(&engine, RCU_CLOSED);
    refuse_seat(&place, RCU_CLOSED);
    look();
    tell("never opened");
    must("rcu_open", rcu_open(2, 8, &engine), 0);
    must("rcu_seat_open", rcu_seat_open(&engine, 1, &place), 0);
    rcu_close(&engine);
    rcu_seat_close(&place);
    tried = 0;
    refuse_engine(&engine, RCU_CLOSED);
    refuse_seat(&place, RCU_CLOSED);
    look();
    tell("closed");
    refuse_engine((rcu_t *)&seat, RCU_OTHER_KIND);
    refuse_seat((rcu_seat_t *)&rcu, RCU_OTHER_KIND);
    look();
    tell("of the other kind");
    /* Where both handles are wrong, the engine's is looked at first. */
    must("a seat for an engine", rcu_arrive((rcu_t *)&seat, &place), RCU_OTHER_KIND);
    must("no engine", rcu_arrive(&engine, (rcu_seat_t *)&rcu), RCU_CLOSED);
    printf("%s; %s\n", rcu_fault_text(RCU_CLOSED), rcu_fault_text(RCU_OTHER_KIND));
    rcu_close(&rcu);
    rcu_seat_close(&seat);
    must("the version of the library", rcu_version(), RCU_VERSION);
    return 0;
}
