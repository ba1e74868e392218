#!/usr/bin/env python3
"""How a thread of bindings/crossbeam-epoch pins, and who drives claims its seat (src/seat.rs).

Use: bindings/model/claim.py

One thread pins, pins itself anew and unpins for ever, and one drives. It goes wrong where both make
a call on the seat, where the engine refuses a call, or where a pinned thread reads in no section;
and where no way leads to a quiescent state or idleness any more. Without any one of its looks and
exchanges and its fence it goes wrong. The last line is 'N passed, M failed'.
"""
import sys
from collections import namedtuple

sys.dont_write_bytecode = True
from walk import judge, load

AWAKE, TAKEN, IDLE, ASKED = "awake", "taken", "idle", "asked"
CALLS = ("wake", "pass", "pass anew")
PARTS = ("the pin's exchange", "the pin's look at the state", "the wait while it is taken",
         "the exchange of who was asked", "the driver's fence", "the exchange of who takes",
         "the driver's look behind it")

# So many stores of a thread wait at most.
MOST = 3

# `pc` of the thread and of who drives; what the driver saw of the state, and early of `pinned`; the
# two words; the stores that wait; and whether the seat is idle. Awake, it has a section.
State = namedtuple("State", "thread driver saw early pinned state own theirs idle")
START = State("announce", "look", None, None, 0, IDLE, (), (), True)


def flushes(now):
    """A store reaches memory."""
    for buffer in ("own", "theirs"):
        waiting = getattr(now, buffer)
        if waiting:
            word, value = waiting[0]
            yield now._replace(**{buffer: waiting[1:], word: value})


def exchange(now, buffer, old, new, then, other):
    """An exchange of the state, which waits until the stores before it are made."""
    who = "thread" if buffer == "own" else "driver"
    if getattr(now, buffer):
        return
    done = now.state == old
    yield now._replace(**{who: then if done else other, "state": new if done else now.state})


def thread_steps(now, without):
    """What the thread does next."""
    pc, seen = now.thread, load(now.state, now.own, "state")

    def store(word, value, then):
        return now._replace(own=now.own + ((word, value),), thread=then)

    if pc == "announce" and without == "the pin's exchange":
        yield store("pinned", 1, "look")
    elif pc == "announce":
        if not now.own:
            yield now._replace(pinned=1, thread="look")
    elif pc == "look":
        ways = {AWAKE: "read", IDLE: "wake", ASKED: "turn", TAKEN: "give way"}
        if without == "the wait while it is taken":
            ways[TAKEN] = "read"
        blind = without == "the pin's look at the state"
        yield now._replace(thread="read" if blind else ways[seen])
    elif pc in ("turn", "turn anew"):
        then = "pass" if pc == "turn" else "pass anew"
        if without == "the exchange of who was asked":
            yield store("state", AWAKE, then)
        else:
            other = "look" if pc == "turn" else "read"
            yield from exchange(now, "own", ASKED, AWAKE, then, other)
    elif pc == "awake":
        yield store("state", AWAKE, "read")
    elif pc == "give way":
        yield store("pinned", 0, "wait")
    elif pc == "wait":
        if seen != TAKEN:
            yield now._replace(thread="announce")
    elif pc == "read":
        yield "a thread reads in no section" if now.idle else now._replace(thread="unpin")
        if seen == ASKED:
            yield now._replace(thread="turn anew")
    elif pc == "unpin":
        yield store("pinned", 0, "announce")
    else:
        yield from thread_calls(now)


def thread_calls(now):
    """The thread's next call of the engine: to wake and enter, or to exit, pass and enter."""
    pc = now.thread
    if (pc == "wake") != now.idle:
        yield f"refused: {pc} where the seat is {'idle' if now.idle else 'awake'}"
    else:
        yield now._replace(thread="awake" if pc == "wake" else "read", idle=False)


def driver_steps(now, without):
    """What who drives does next."""
    pc = now.driver

    def store(value):
        return now._replace(theirs=now.theirs + (("state", value),), driver="look")

    if pc == "look":
        seen = load(now.state, now.theirs, "state")
        yield now._replace(saw=seen, early=None, driver="glance")
    elif pc == "glance":
        wishes = {AWAKE: "ask"} if now.pinned else {AWAKE: "take", ASKED: "take"}
        yield now._replace(driver=wishes.get(now.saw, "look"))
    elif pc == "ask":
        yield from exchange(now, "theirs", AWAKE, ASKED, "look", "look")
    elif pc == "take":
        if without == "the driver's fence" and now.early is None:
            yield now._replace(early=now.pinned)  # the look behind may come before
        if without == "the exchange of who takes":
            yield now._replace(theirs=now.theirs + (("state", TAKEN),), driver="see")
        else:
            yield from exchange(now, "theirs", now.saw, TAKEN, "see", "look")
    elif pc == "see":
        pinned = now.pinned if now.early is None else now.early
        blind = without == "the driver's look behind it"
        yield now._replace(driver="back" if pinned and not blind else "idle")
    elif pc == "idle":
        if now.thread in CALLS:
            yield "two calls are made on a seat"
        elif now.idle:
            yield "refused: idle where the seat is idle"
        else:
            yield now._replace(idle=True, driver="said")
    elif pc == "said":
        yield store(IDLE)
    elif pc == "back":
        yield store(ASKED)


def protocol(without):
    """The steps of both, but for one part."""
    def all_steps(now):
        yield from flushes(now)
        yield from thread_steps(now, without)
        yield from driver_steps(now, without)

    def steps(now):
        for it in all_steps(now):
            if isinstance(it, str) or max(len(it.own), len(it.theirs)) <= MOST:
                yield it
    return steps


def main():
    rows = list(judge("claim", START, protocol, PARTS, lambda it: it.idle or "pass" in it.thread))
    print(*rows, sep="\n", end="\n" if rows else "")
    print(f"{1 + len(PARTS) - len(rows)} passed, {len(rows)} failed")
    return 1 if rows else 0


if __name__ == "__main__":
    sys.exit(main())
