/* The seat of a slot. In memb, signal and bp the thread that holds the lock makes the calls on it;
 * in mb and qsbr the slot's own thread does, with no lock.
 *
 * It rests on these sentences of include/rcu.h: of rcu_begin, "of each section one of two holds:
 * all of it comes before what follows the end of this grace period, or it sees what came before
 * this call"; and of rcu_seat_wake, of a grace period "that found it idle, or whose number it saw,
 * the section sees what came before its begin". So in mb a thread that reads again and again holds
 * no grace period up; by a pin, which notes no number, it would. */
#ifndef URCU_SEATS_H
#define URCU_SEATS_H
#include "layer.h"

static inline void open_seat(struct slot *slot) {
    uint64_t number;
    if (BY_WORD) {
        must("pin", rcu_seat_pin_unfenced(&slot->seat));
        return;
    }
    must("wake", rcu_seat_wake_unfenced(&slot->seat, &number));
    must("enter", rcu_seat_enter(&slot->seat));
}

static inline void close_seat(struct slot *slot) {
    must("unpin", rcu_seat_unpin(&slot->seat));
}

#endif
