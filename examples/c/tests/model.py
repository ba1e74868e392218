#!/usr/bin/env python3
"""Tries how the threads of sleeping_driver.c sleep and wake one another, over all interleavings and store
buffers: bindings/urcu/tests/model.py says how, and what the marks of a step mean.

Use: examples/c/tests/model.py
"""
import os
import sys

HERE = os.path.dirname(os.path.realpath(__file__))
sys.path[:0] = [f"{HERE}/../../../bindings/{it}" for it in ("urcu/tests", "model")]
sys.dont_write_bytecode = True
from model import try_all
from sleep import OWN, sleeps

# A reader gets quiet, and then looks whether the driver sleeps for it.
GETS_QUIET = """
    quietME = 1                           | rcu_seat_idle(&own->seat)); .. wake_driver(own);
    fence !
    s = slept                             | rcu_seat_should_wake_driver(&own->seat, &wakes)
    if s is ME goto wakes
    goto over
wakes:
    lock                                  | if (wakes) wake(&quiet);
    signal !                              | pthread_cond_signal(condition);
    unlock
over:
"""
# A thread requests the grace period of a cookie, ME, and looks whether the driver sleeps if that is
# the greatest. (What the second thread does is needed: it requests all.)
REQUESTS = """
    c = max cookie ME !                   | rcu_seat_request_gp(&own->seat, cookie, &wakes)
    if c is ME goto over
    if c is 2 goto over
    s = asleep !                          | if (wakes) wake(&requested);
    unless s goto over
    lock
    signal !                              | pthread_cond_signal(condition);
    unlock
over:
"""
# The driver makes what was requested, up to 2, and sleeps meanwhile.
DRIVES = """
    lock
again:
    asleep = 1 !                          | must("requested", rcu_requested_gp(&rcu, true, &cookie));
    fence !
    c = cookie !
    if c is made goto sleeps              | if (rcu_poll(&rcu, cookie)) {
    asleep = 0                            | must("requested", rcu_requested_gp(&rcu, false, &cookie));
    made = cookie                         | make_grace_periods(cookie);
    goto again
sleeps:
    if made is 2 goto over
    wait                                  | pthread_cond_wait(&requested, &lock)
    lock
    goto again
over:
    unlock
"""
# Who waits looks under the lock whether the cookie is done; the driver ends it with the lock held.
WAITS = """
    lock
again:
    d = done                              | while (!rcu_poll(&rcu, cookie))
    if d goto over
    wait                                  | pthread_cond_wait(&ended, &lock)
    lock
    goto again
over:
    unlock
"""
ENDS = """
    lock
    done = 1                              | turn.what == RCU_TURN_ENDED
    signal !                              | pthread_cond_broadcast(&ended)
    unlock
"""
PROTOCOLS = {
    "a sleep until two readers are quiet":
        ({"quiet1": 0, "quiet2": 0, "slept": 0},
         [GETS_QUIET.replace("ME", "1"), GETS_QUIET.replace("ME", "2"),
          sleeps("rcu_driver_prepare_wait(&rcu, &sleeps, &left)",
                 "if (sleeps) pthread_cond_wait(&quiet, &lock)")]),
    "a sleep until a thread requests a grace period":
        ({"cookie": 0, "asleep": 0},
         [REQUESTS.replace("ME", "1").replace(" ! ", "   "), REQUESTS.replace("ME", "2"), DRIVES]),
    "a wait for a grace period of two threads": ({"done": 0}, [WAITS, WAITS, ENDS]),
}

if __name__ == "__main__":
    sys.exit(try_all(PROTOCOLS, [f"{HERE}/../sleeping_driver.c", f"{OWN}/sleeps.rt"]))
