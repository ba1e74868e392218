/* Sections of qsbr. From one quiescent state to the next an online thread is within one section of
 * its engine's, so rcu_read_lock has nothing to do. A quiescent state renews that section; a thread
 * that is offline is idle.
 *
 * It rests on seats.h, and on this sentence of include/rcu.h, of rcu_seat_renew: it "closes it,
 * passes a quiescent state, and opens the next one". If no grace period has begun since the latest
 * one, the section goes on, as no grace period waits for its end. The gp_thread tells of a grace
 * period after the engines began it, and a thread looks for that before it renews: so the renewal
 * sees the begun number, and the grace period does not wait for another one (tests/model.py).
 * urcu/sections.h has the look inlined. */
#include "marks.h"
#include "seats.h"

atomic_ulong latest_begun;

void CALL(read_lock)(void) {}
void CALL(read_unlock)(void) {}

int CALL(read_ongoing)(void) {
    return self.online;
}

void CALL(thread_online)(void) {
    if (self.online || !self.slot) return;
    open_seat(self.slot);
    self.online = true;
}

void CALL(thread_offline)(void) {
    if (!self.online) return;
    self.online = false;
    mark_release();
    close_seat(self.slot);
    got_quiet(self.slot); /* after the close: who waits for this reader may sleep */
}

void CALL(quiescent_state)(void) {
    struct slot *slot = self.slot;
    /* Acquire (pairs with tell_begun): the renewal below sees the number of this grace period. */
    unsigned long begun = atomic_load_explicit(&latest_begun, memory_order_acquire);
    uint64_t number;
    if (likely(begun == self.begun) || !self.online) return;
    self.begun = begun; /* that was seen; one that begins now is seen at the next look */
    mark_release();
    must("renew", rcu_seat_renew_unfenced(&slot->seat, &number));
    got_quiet(slot);
}

#ifdef MAY_INLINE_SECTIONS
_Static_assert(offsetof(struct reader, begun) == 8, "urcu_reader_1 of urcu/sections.h");
#endif

/* Who waits is offline meanwhile. Returns whether it was online. */
bool leave(const char *call) {
    bool was_online = self.online;
    (void)call;
    CALL(thread_offline)();
    return was_online;
}

/* In the child of a fork: it goes on as it was. */
void stay_as_in(struct slot *old) {
    bool was_online = self.online;
    (void)old;
    self.online = false;
    restore_online(was_online);
}
