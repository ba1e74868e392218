#!/usr/bin/env python3
"""How a wait for a grace period sleeps until a processor reports (crates/rcu_live).

Use: bindings/model/waits.py

The steps of a wait and of a report are read from the sources, in the order in which they stand
there, and walked over all interleavings and store buffers. A thread waits beside a reader, which
reports in each way, gets idle, and then may pin once and unpin. Or two threads wait, for the second
grace period from then on. Where no way leads to the end of each wait one would sleep for good.
Without any one of its looks, orders and exchanges that happens. What names a processor, wakes or
sleeps in the sources, and is no step here, is a failure. The last line is 'N passed, M failed'.
"""
import os
import sys
from collections import namedtuple

sys.dont_write_bytecode = True
from steps import Sources
from walk import judge

OWN = f"{os.path.dirname(os.path.realpath(__file__))}/../../crates/rcu_live/src"
QUOTES = {
    # a report
    "let number = board.load(&mut self.seat);": ("load",),
    "let now = board.load(&mut self.seat);": ("load",),
    "let number = board.close_section(seat);": ("load",),
    "let stored = board.store(": ("store",),
    "live.stored(&mut self.seat, stored);": ("Live::stored",),
    "live.stored(seat, stored);": ("Live::stored",),
    "stored.wakes(&self.board, seat, &self.sleepers);": ("Stored::wakes",),
    "sleepers.wake_for(board, seat, cpu);": ("Sleepers::wake_for",),
    "if board.is_asked(seat, cpu) {": ("Board::is_asked",),
    "let asked = self.table.shared.load::<LookAtAsked>(seat, ASKED);": ("look",),
    "asked == u64::from(cpu) + 1": (),
    "self.answer(board, seat);": ("Sleepers::answer",),
    "let taken_back = board.take_back(seat);": ("Board::take_back",),
    "let asked = self.table.shared.swap::<TakeBack>(seat, ASKED, 0);": ("clear",),
    "self.wakes.wake_all(taken_back);": ("WakeCount::wake_all",),
    "self.word.fetch_add(1, Ordering::SeqCst);": ("add",),
    "self.word.wake_all();": ("wake",),
    # a round of a wait
    "self.wait_once(rt, seat, cookie)?;": ("Live::wait_once",),
    "let turned = self.drive_for(rt, cookie)?;": ("drive",),
    "let _ = seat.quiesce(self);": ("CpuSeat::quiesce",),
    "rounds = self.sleep_between(rt, seat, cookie, rounds);": ("Live::sleep_between",),
    "if rounds < ROUNDS {": ("early",),
    # the asking
    "if let Some(unheard) = self.ask_and_hear(rt, seat.cpu(), cookie) {":
        ("Live::ask_and_hear", "unlock", "if unheard"),
    "let mut engine = self.engine.lock(rt);": ("lock",),
    "match self.ask(&engine, own, cookie)": ("Live::ask",),
    "match engine.whom_to_ask(own, cookie)": ("Engine::whom_to_ask",),
    "cookie.is_done_first(self.grace().value()) || self.next_awaited(own) == Some(own) {":
        ("if done or own",),
    "self.next_awaited(0)": ("whom",),
    "Some(cpu) => Some(self.sleepers.ask(&self.board, cpu)),": ("Sleepers::ask",),
    "let counted = self.wakes.count();": ("WakeCount::count",),
    "wakes: self.word.load(Ordering::SeqCst),": ("count",),
    "let (asked, other) = board.ask(cpu, counted);": ("Board::ask",),
    "let asks = u64::from(cpu) + 1;": (),
    "let (asked, _asking) = self.table.shared.swap_new_seat::<Ask>(ASKED, asks);": ("ask",),
    "let other = if asked != 0 && asked != asks {": ("other",),
    "if let Some(taken_back) = other {": ("if",),
    "Some(asked) => asked.hear(&mut engine),": ("Asked::hear",),
    "match engine.collect(cpu)": ("collect",),
    "Ok(Collected::NotYet) => Some(NotHeard { counted }),": (),
    "self.sleep(rt, unheard);": ("Live::sleep",),
    "self.sleepers.sleep(rt, unheard);": ("Sleepers::sleep",),
    "self.wakes.sleep(rt, unheard);": ("WakeCount::sleep",),
    "self.word.park(rt, (counted.wakes & 0xffff_ffff) as u32);": ("park",),
}
# What names a processor, wakes or sleeps: in the files of its words all, and elsewhere these. It has
# to be a step of some function here.
STEPS = {
    "wake_words.rt": r"self\.(?!now\b)|engine\.\w+\(",
    "sleepers.rt": r"self\.",
    "": (r"sleepers\.|\.sleepers\b|\.hear\(|\.stored\(|\.wakes\(|board\.store\(|"
         r"\bpark\b|\.sleep\(|\.ask\(|ask_and_hear\(|whom_to_ask\(|ASKED|_new_seat|WakeCount|"
         r"Stored \{"),
}
# Declarations, and what makes the words and the token of a store.
NO_STEPS = (r"\bfn \w+|\bstruct \w+|\bimpl\b|^use |\bsleepers: Sleepers|let Stored \{|"
            r"^ *Stored \{ cpu \}$|\bwakes: WakeCount|const ASKED")

# How a processor reports: by a number, and by a word for as long as it is away.
PASSES = ("quiesce", "quiesce_since", "renew_outermost")
RESTS = ("idle", "unpin", "depart")

# The processors, in the order in which a sleeper asks.
FIRST, READER, SECOND = range(3)
IDLE = 9

# Of each thread what it does and which step comes next; its stores that wait; what it stores, whom
# it asks, what its last test told, and whether it has not heard of whom it asked; the own words; the number of the grace period that began last,
# of the one that ended last, of the one that is waited for; who is awaited; who is asked, and one
# more; of each thread whether no wake was counted since it looked; who has the lock.
State = namedtuple(
    "State", "threads waiting value whom yes unheard own number done last awaited asked counted lock")
TWO = State((("wait", 0), ("awake", 0), ("wait", 0)), ((), (), ()), (0, 0, 0), (0, 0, 0),
            (False, False, False), (False, False, False), (0, 0, 0), 0, 0, 2, (False, False, False),
            0, (False, False, False), None)
ALONE = TWO._replace(threads=(("wait", 0), ("awake", 0), ("over", 0)), own=(0, 0, IDLE), last=1)


def put(row, place, value):
    return row[:place] + (value,) + row[place + 1:]


def flat(steps):
    """The steps in a row. Behind one that has a block stands how many steps the block has."""
    for it in steps:
        if not isinstance(it, tuple):
            yield it
        elif it[1]:
            block = tuple(flat(it[1]))
            yield from (it[0], len(block), *block)
        else:
            yield it[0]


def edited(steps, edit):
    """The steps, edited in each block too."""
    return edit([(it[0], tuple(edited(it[1], edit))) if isinstance(it, tuple) else it
                 for it in steps])


def kept(steps):
    return steps


def without(name):
    """Leaves a step out, and its block."""
    return lambda steps: [it for it in steps if (it[0] if isinstance(it, tuple) else it) != name]


def other(name, new):
    """Another step in its place."""
    return lambda steps: [new if it == name else it for it in steps]


def exchanged(name, later):
    """A step changes places with a later one, and all between goes with it."""
    def edit(steps):
        names = [it[0] if isinstance(it, tuple) else it for it in steps]
        if name not in names or later not in names[names.index(name):]:
            return steps
        at, to = names.index(name), names.index(later, names.index(name))
        return steps[:at] + steps[at + 1:to + 1] + [steps[at]] + steps[to + 1:]
    return edit


def count_anew(steps):
    """The wakes are counted once more before the sleep."""
    return [own for it in steps for own in (("count", it) if it == "park" else (it,))]


def no_wake_of_another(steps):
    """Who asked another one is not woken."""
    return [it for it in steps if not (isinstance(it, tuple) and it == ("if", ("add", "wake")))]


PARTS = {
    "the look behind a store": without("look"),
    "the store before that look": exchanged("store", "look"),
    "the exchange of an own word": other("store", "late store"),
    "the exchange of who is asked": other("ask", "late ask"),
    "the collection behind the asking": other("collect", "no collection"),
    "the asking before the collection": exchanged("ask", "collect"),
    "the count before the asking": exchanged("count", "ask"),
    "the sleep on that count": count_anew,
    "the clear before the wake": exchanged("clear", "wake"),
    "the count of a wake": without("add"),
}
PARTS_OF_TWO = {
    "the wake of who asked another one": no_wake_of_another,
    "the look at one's own processor": without("if done or own"),
}


def flushes(now):
    """A store reaches memory."""
    for me, buffer in enumerate(now.waiting):
        if buffer:
            (kind, value), waiting = buffer[0], put(now.waiting, me, buffer[1:])
            new = put(now.own, me, value) if kind == "own" else value
            yield now._replace(waiting=waiting, **{kind: new})


def to(now, me, thread):
    """The thread goes on there. At a start it keeps nothing."""
    now = now._replace(threads=put(now.threads, me, thread))
    return now if thread[1] else now._replace(
        value=put(now.value, me, 0), whom=put(now.whom, me, 0), yes=put(now.yes, me, False),
        unheard=put(now.unheard, me, False))


def drive(now):
    """A step of driving under the lock."""
    number, awaited = now.number, now.awaited
    if number == now.done < now.last:
        number += 1
        awaited = tuple(it < number for it in now.own)
    awaited = tuple(it and own < number for it, own in zip(awaited, now.own))
    return now._replace(number=number, awaited=awaited,
                        done=now.done if any(awaited) else number)


class Program:
    """The steps of a wait, of a quiescent state and of a rest, but for one part."""

    def __init__(self, wait, passes, rests, edit=kept):
        wait, passes, rests = (tuple(flat(edited(it, edit))) for it in (wait, passes, rests))
        self.steps = {"wait": wait, "pass": passes, "rest": rests, "unpin": rests, "last": rests}
        self.after = {"wait": "wait", "pass": "awake", "rest": "idle", "unpin": "over",
                      "last": "over"}

    def __call__(self, now):
        yield from flushes(now)
        for me, (does, at) in enumerate(now.threads):
            if does in self.steps:
                found = self.step(now, me, self.steps[does][at], (does, at + 1))
            else:
                found = self.reader(now, me, does) if me == READER else ()
            for it in found:
                yield self.settled(it, me)

    def settled(self, now, me):
        """The thread's next steps are taken too that no other thread can see or hinder."""
        does, at = now.threads[me]
        if does not in self.steps:
            return now
        steps = self.steps[does]
        if at == len(steps):
            return self.settled(to(now, me, (self.after[does], 0)), me)
        if isinstance(steps[at], int):
            then = (does, at + 1 + (0 if now.yes[me] else steps[at]))
            return self.settled(to(now._replace(yes=put(now.yes, me, False)), me, then), me)
        if steps[at] == "if done or own" and (now.done == now.last or now.awaited[me]) \
                or steps[at] == "whom" and not any(now.awaited):
            return self.settled(to(now._replace(lock=None), me, ("wait", 0)), me)
        if steps[at] in UNSEEN:
            return self.settled(to(effect(now, me, steps[at]), me, (does, at + 1)), me)
        return now

    @staticmethod
    def reader(now, me, does):
        """What the reader does next. It stays away once no later grace period can await it."""
        def rest(how):
            return to(now, me, (how, 0))._replace(value=put(now.value, me, IDLE))

        if does == "awake":
            yield to(now, me, ("pass", 0))
            yield rest("rest")
            if now.own[me] == now.last and not now.waiting[me]:
                yield to(now, me, ("over", 0))
        elif does == "idle":
            yield to(now, me, ("over", 0))
            if not now.waiting[me]:
                yield to(now._replace(own=put(now.own, me, 0)), me, ("pinned", 0))
        elif does == "pinned":
            yield rest("unpin")

    def step(self, now, me, name, then):
        """The next step of who waits or reports, and what comes then."""
        if name == "drive":
            if now.done == now.last:
                yield to(now, me, ("last", 0))._replace(value=put(now.value, me, IDLE))
            elif now.lock is None:
                yield to(drive(now), me, then)
        elif name == "lock":
            if now.lock is None:
                yield to(now._replace(lock=me), me, then)
        elif name == "park":
            if not now.waiting[me]:
                yield to(now, me, ("asleep", 0) if now.counted[me] else then)
        elif name not in EXCHANGES or not now.waiting[me]:
            yield to(effect(now, me, name), me, then)


# What waits until the stores before it are made. (A late one does too: so the states are few.)
EXCHANGES = ("store", "ask", "clear", "add", "wake", "late store", "late ask")
# What who has the lock looks at, and what a thread does by itself.
UNSEEN = ("early", "other", "if", "if unheard", "if done or own", "whom", "unlock")


def effect(now, me, name):
    """What a step does that comes at any time."""
    whom, waiting = now.whom[me], now.waiting
    others = now.asked not in (0, whom + 1)
    if name in ("early", "other", "if", "if done or own"):
        return now
    if name == "load":
        return now._replace(value=put(now.value, me, now.number))
    if name == "late store":
        return now._replace(waiting=put(waiting, me, waiting[me] + (("own", now.value[me]),)))
    if name == "store":
        return now._replace(own=put(now.own, me, now.value[me]), value=put(now.value, me, 0))
    if name == "look":
        return now._replace(yes=put(now.yes, me, now.asked == me + 1))
    if name == "clear":
        return now._replace(asked=0)
    if name == "add":
        return now._replace(counted=(False, False, False))
    if name == "wake":
        return now._replace(threads=tuple(("wait", 0) if it == ("asleep", 0) else it
                                          for it in now.threads))
    if name == "whom":
        return now._replace(whom=put(now.whom, me, now.awaited.index(True)))
    if name == "count":
        return now._replace(counted=put(now.counted, me, True))
    if name == "late ask":
        return now._replace(waiting=put(waiting, me, waiting[me] + (("asked", whom + 1),)),
                            yes=put(now.yes, me, others))
    if name == "ask":
        return now._replace(asked=whom + 1, yes=put(now.yes, me, others))
    if name == "collect":
        heard = now.own[whom] >= now.number
        return now._replace(awaited=put(now.awaited, whom, now.awaited[whom] and not heard),
                            unheard=put(now.unheard, me, not heard))
    if name == "no collection":
        return now._replace(unheard=put(now.unheard, me, True))
    if name == "unlock":
        return now._replace(lock=None)
    assert name == "if unheard", f"no such step: {name}"
    return now._replace(yes=put(now.yes, me, now.unheard[me]), whom=put(now.whom, me, 0),
                        unheard=put(now.unheard, me, False))


def is_over(now):
    return now.threads[FIRST] == now.threads[SECOND] == ("over", 0)


def rows(sources):
    """What is not as it has to be, of how much."""
    wait = sources.steps("Live::wait_for")
    passes = {it: sources.steps(f"CpuSeat::{it}") for it in PASSES}
    rests = {it: sources.steps(f"CpuSeat::{it}") for it in RESTS}
    sources.steps("Board::stored")  # by the words alone: it has none
    own = passes["quiesce"], rests["idle"]
    yield from judge("a wait", ALONE, lambda part: Program(wait, *own, PARTS.get(part, kept)),
                     PARTS, is_over)
    yield from judge("two waits", TWO, lambda part: Program(wait, *own, PARTS_OF_TWO.get(part, kept)),
                     PARTS_OF_TWO, is_over)
    for name, steps in (*passes.items(), *rests.items()):
        pair = (steps, own[1]) if name in passes else (own[0], steps)
        if list(pair) != list(own):
            yield from judge(f"a wait beside {name}", ALONE,
                             lambda part, pair=pair: Program(wait, *pair), (), is_over)
    yield from (f"not there: {it}" for it in sources.missing())
    yield from (f"no step of the model: {it}" for it in sources.unread(STEPS, NO_STEPS))


def main():
    found = list(rows(Sources(OWN, QUOTES)))
    print(*found, sep="\n", end="\n" if found else "")
    count = 4 + len(PARTS) + len(PARTS_OF_TWO)
    print(f"{count - min(count, len(found))} passed, {len(found)} failed")
    return 1 if found else 0


if __name__ == "__main__":
    sys.exit(main())
