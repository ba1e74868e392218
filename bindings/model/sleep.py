#!/usr/bin/env python3
"""Tries how a thread sleeps until readers are quiet, and one of them wakes it (rust/src/inner.rs),
over all interleavings and store buffers: urcu/tests/model.py says how, and what the marks of a step
mean.

Use: bindings/model/sleep.py
"""
import os
import sys

HERE = os.path.dirname(os.path.realpath(__file__))
sys.path[:0] = [f"{HERE}/../urcu/tests", HERE]
sys.dont_write_bytecode = True
from model import try_all
from steps import Sources

# A reader gets quiet, and then looks whether the driver sleeps for it.
GETS_QUIET = """
    quietME = 1
    fence !
    s = slept                             | if seat.wakes() {
    if s is ME goto wakes
    goto over
wakes:
    lock !                                | drop(self.lock()); .. self.quiet.notify_one();
    unlock
    signal !
over:
"""
# The driver says for which reader it sleeps, the first that it did not find quiet, and then looks
# at each that it did not: by the call SAYS, and then by WAITS.
SLEEPS = """
    lock
again:
    if one goto two
    slept = 1                             | SAYS
    fence !
    one = quiet1 !                        | sleep_for(first); .. collect_all(&mut opened.inner)
    two = quiet2
    unless one goto sleeps
    goto more
two:
    slept = 2
    fence !
    two = quiet2 !
    unless two goto sleeps
more:
    unless two goto again
    goto woken
sleeps:
    wait                                  | WAITS
    lock
    goto again
woken:
    slept = 0
    one = quiet1
    must one: the driver goes on before a reader is quiet
    two = quiet2
    must two: the driver goes on before a reader is quiet
    unlock
"""


def sleeps(says, waits):
    """What the driver does, by these calls."""
    return SLEEPS.replace("SAYS", says).replace("WAITS", waits)


PROTOCOLS = {
    "a sleep until two readers are quiet":
        ({"quiet1": 0, "quiet2": 0, "slept": 0},
         [GETS_QUIET.replace("ME", "1"), GETS_QUIET.replace("ME", "2"),
          sleeps("locked.rcu.may_sleep()",
                 "(true, _) => locked = self.sleep(&self.quiet, locked)")]),
}
OWN = f"{HERE}/../../crates/rcu_c/src"
# What says for whom the driver sleeps, in the order in which it stands in `sleep_for_first`.
QUOTES = {
    "let first = opened.inner.next_awaited(0);": ("find the first",),
    "opened.requests.sleep_for(first);": ("say it",),
    "collect_all(&mut opened.inner);": ("look at each",),
    "if awaited.count() == 0 {": ("none is awaited",),
    "opened.requests.sleep_for(None);": ("say none",),
}
WANTED = ["find the first", "say it", "look at each", ("none is awaited", ("say none",))]


def named():
    """Whether what is named is so named in the archive for C, and nowhere else."""
    sources = Sources(OWN, QUOTES)
    found = sources.steps("None::sleep_for_first")
    yield found == WANTED, f"who is named, and then looked at: {found}"
    others = list(sources.unread({"": r"\bsleep_for\(|name_cpu\("}, r"\bfn "))
    yield not others, f"nothing else names one{': '.join(['', *others])}"


if __name__ == "__main__":
    sys.exit(try_all(PROTOCOLS, [f"{HERE}/../rust/src/inner.rs", f"{OWN}/sleeps.rt"], named()))
