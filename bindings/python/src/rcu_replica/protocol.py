"""What one machine of a cluster does: its replica, its processors, and the streams, step by step.

It rests on the proved laws of replicas (`rcu_report::laws`): those that began alike and heard the
same processors await the same ones. It adds what no proof speaks of, and tests look at: whom a
begin names, when a message is made, which are sent again, and when Redis is not believed.
"""
from __future__ import annotations

import threading
import time
from typing import Callable, Iterable, List, Optional

from .library import Replica
from .streams import Begin, Lost, Message, Replaced, Streams

AGAIN, LONGEST = 1.0, 30.0  # seconds until all is read and sent again: each time twice as many
# Processor 0 of a replica never departs. It belongs to no machine, and no begin names it: processor
# C of the cluster is C + 1 of each replica, so that each machine may leave.
FIRST = 1


class Protocol:
    """A machine with its own processors, which goes on by `step`. The lock is for `enter`, `exit`,
    and what else threads look at beside the one that steps."""

    longest = LONGEST

    def __init__(self, streams: Streams, cpus: int, own: Iterable[int],
                 make: Callable[[int], Replica] = Replica, again: float = AGAIN) -> None:
        self.streams, self.cpus, self.own = streams, cpus, frozenset(own)
        if not self.own or not self.own <= frozenset(range(cpus)):
            raise ValueError(f"the own processors are some of 0 to {cpus - 1}")
        self.lock = threading.RLock()
        self.make, self.replica = make, make(cpus + FIRST)
        self.at: Optional[Begin] = None  # the begin of the grace period that it is in, or was
        self.next: Optional[Begin] = None
        self.running = self.leaving = self.is_idle = False
        self.wake = threading.Event()  # set by who wants that a step is made at once
        self.place = "0-0"  # the last message that was read
        self.awaited: frozenset[int] = frozenset()
        self.left: set[int] = set()
        self.joined: set[int] = set()
        self.inside: dict[int, int] = {}  # how many sections are open on a processor
        self.passed: set[int] = set()  # own processors that left their sections since the begin
        self.let_in: frozenset[int] = frozenset()  # own processors that may open sections
        self.again = self.wait = again
        self.begun = self.due = time.monotonic()
        self.begun_at = time.time()
        self.names = dict.fromkeys(self.own, streams.name)  # who spoke for a processor last
        self.sent: frozenset[int] = frozenset()
        self.sent_again = self.read_again = self.ends = 0
        top = streams.top()
        self.silent_to = self.wanted = top.number if top else 0  # a begin above is wanted

    @property
    def number(self) -> int:
        """The number of the latest begin here."""
        return self.at.number if self.at else 0

    @property
    def ended(self) -> int:
        """The greatest number of a grace period that ended: one that is followed has."""
        return self.number - 4 if self.running else self.number

    # Sections

    def enter(self, cpu: int) -> bool:
        """Opens a section on an own processor, and returns whether it may: a grace period that
        named it has ended here, whose begin was written after this machine started, or came back.
        So each machine that was in it knows that begin, and finds out if Redis loses it."""
        with self.lock:
            may = cpu in self.let_in and not self.leaving
            if may:
                self.inside[cpu] = self.inside.get(cpu, 0) + 1
            return may

    def exit(self, cpu: int) -> None:
        """Closes a section on a processor."""
        with self.lock:
            self.inside[cpu] -= 1
            if not self.inside[cpu]:
                del self.inside[cpu]
                if self.leaving or cpu not in self.passed:  # (the first time says all, else)
                    self.wake.set()
                self.passed.add(cpu)

    def leave(self) -> None:
        """From now on no section is opened, and an own processor without one departs where it would
        have reported."""
        with self.lock:
            self.leaving = True

    def has_left(self) -> bool:
        """Whether no section is open here, and the begin at hand names no own processor."""
        named = self.at.cpus if self.at else frozenset(range(self.cpus))
        return self.leaving and not self.inside and not self.own & named

    def join(self) -> None:
        """Comes back: the next begin is to name the own processors."""
        with self.lock:
            self.be_silent()
            self.leaving = False

    def be_silent(self) -> None:
        """No own processor opens a section before a grace period named it that begins from now."""
        self.let_in = frozenset()
        self.silent_to = self.wanted = max(self.silent_to, self.number)

    # Steps

    def step(self, seconds: float = 0.02) -> Optional[str]:
        """Moves on, and returns 'begun', 'ended' or None. Where nothing was new, and it has nothing
        to say, it waits so long, or until `wake` is set."""
        # (A blocking read of Redis ends its waiting a tenth of a second late.)
        if self.is_idle and not self.has_to_say():
            self.wake.wait(seconds)
        self.wake.clear()
        until = self.next.before if self.running and self.next else "+"
        begins, place, messages = self.streams.news(self.at, self.place, until)
        self.is_idle = not place and len(begins) < 2
        if not self.believe(begins):
            return "begun"
        if not self.running:
            if self.next:
                return self.begin()
            self.propose_wanted()
            return None
        self.place = place or self.place
        self.hear(messages)
        if not self.awaited:
            return self.end()
        self.do_again(bool(self.next) and not place)
        if not self.next:
            self.speak()
        return None

    def believe(self, begins: List[Begin]) -> bool:
        """Looks whether the begin at hand stands where it stood, and which one is next. Where it was
        cut off, since those that are there wait for none of this machine, it goes on from the first
        one, and returns false."""
        if not self.at or begins and begins[0] == self.at:
            self.next = next(iter(begins[1:] if self.at else begins), None)
            if self.at and self.next and self.next.last != self.at.mark:
                raise Lost(f"the begin {self.next.number} follows another one than that of here")
            return True
        first = self.streams.first()
        is_in = bool(self.inside) or bool(self.let_in) and not self.leaving
        if is_in or not first or first.number <= self.at.number:
            raise Lost(f"the begin {self.at.number} is not there any more")
        if self.running:
            self.replica = self.make(self.cpus + FIRST)
        with self.lock:
            self.be_silent()
        self.at, self.next = None, first
        self.begin()
        return False

    def begin(self) -> str:
        """Begins as the next entry says."""
        begin = self.next
        assert begin
        if not self.at:
            self.replica.run_to(begin.number - 1)
        if self.replica.begin(cpu + FIRST for cpu in begin.cpus) != begin.number:
            raise Lost(f"the begin {begin.number} does not follow that of {self.number}")
        with self.lock:
            self.at, self.next, self.place, self.running = begin, None, begin.before, True
            self.passed.clear()  # what was before says nothing of this grace period
        self.left, self.joined, self.awaited, self.sent = set(), set(), begin.cpus, frozenset()
        self.begun, self.begun_at, self.wait = time.monotonic(), time.time(), self.again
        self.due = self.begun + self.wait
        return "begun"

    def hear(self, messages: Iterable[Message]) -> None:
        """Tells the replica of messages, in the order at hand. One of another grace period than that
        at hand says nothing: its number is another one, or its mark, where Redis lost a begin."""
        assert self.at
        for it in messages:
            if (it.number, it.mark) != (self.at.number, self.at.mark):
                continue
            self.note_speaker(it)
            if it.kind == "report":
                self.replica.report(it.cpu + FIRST, it.number)
            elif it.kind == "depart":
                self.left.add(it.cpu)
                self.replica.depart(it.cpu + FIRST)
            else:
                self.joined.add(it.cpu)
        self.awaited = frozenset(cpu - FIRST for cpu in self.replica.awaited())

    def note_speaker(self, it: Message) -> None:
        """Notes who speaks for a processor. One machine does. (What was shipped for this machine
        before it started has the number of a begin of that time.)"""
        assert self.at
        is_other = it.cpu in self.own and it.speaker != self.streams.speaker
        if is_other and self.at.number > self.silent_to:
            raise Replaced(f"machine {it.name} speaks for processor {it.cpu}, too")
        self.names[it.cpu] = it.name

    def holders(self) -> dict[str, frozenset[int]]:
        """The awaited processors, by the names of their machines: '' if none has spoken for one."""
        held: dict[str, set[int]] = {}
        for cpu in self.awaited:
            held.setdefault(self.names.get(cpu, ""), set()).add(cpu)
        return {name: frozenset(held[name]) for name in sorted(held)}

    def do_again(self, at_once: bool) -> None:
        """Once it waits for long, it reads and sends again what lies in this grace period."""
        assert self.at
        if at_once or time.monotonic() >= self.due:
            self.place, self.read_again = self.at.before, self.read_again + 1
            self.wait = min(2 * self.wait, self.longest)
            self.due = time.monotonic() + self.wait
            self.sent_again += len(self.sent & self.awaited)
            self.sent = frozenset()

    def quiet(self) -> frozenset[int]:
        """The awaited own processors that passed a quiescent state since the begin, and of which
        nothing was sent. One between two sections is one, though each look finds a section open."""
        with self.lock:
            outside = self.own - self.inside.keys()
            return self.awaited & (outside | self.passed) - self.sent

    def wishes(self) -> frozenset[int]:
        """The own processors that are not named, and want to be."""
        named = self.at.cpus if self.at else self.own
        return frozenset() if self.leaving else self.own - named - self.joined - self.sent

    def has_to_say(self) -> bool:
        """Whether it would write something now."""
        return bool(self.quiet() or self.wishes()) if self.running else self.wants_to_begin()

    def speak(self) -> None:
        """Ships a message of each quiet processor, and of each that wants to be named. A processor
        departs only while no section is open on it: the next begin does not name it. (If the next
        begin is there, this grace period has ended.)"""
        assert self.at
        with self.lock:
            quiet = self.quiet()
            departing = quiet - self.inside.keys() if self.leaving else frozenset()
        for kind, cpus in (("report", quiet - departing), ("depart", departing),
                           ("join", self.wishes())):
            self.sent |= cpus
            if cpus:
                self.streams.ship(kind, self.at, cpus)

    def end(self) -> str:
        """The grace period ends here."""
        assert self.at
        self.replica.end()
        with self.lock:
            self.running, self.ends = False, self.ends + 1
            if self.at.number > self.silent_to and not self.leaving:
                self.let_in = self.own & self.at.cpus
        return "ended"

    # The next begin

    def want(self) -> int:
        """Asks for a grace period that begins from now on, and returns the number above which its
        begin lies."""
        top = self.streams.top()
        self.wanted = max(self.wanted, self.number, top.number if top else 0)
        return self.wanted

    def wants_to_begin(self) -> bool:
        """Whether a begin is wanted: also to be let in, or to have left."""
        if self.leaving:
            return self.number <= self.wanted or not self.has_left() and not self.inside
        return self.number <= self.wanted or not self.own <= self.let_in

    def propose_wanted(self) -> None:
        if self.wants_to_begin():
            self.propose()

    def propose(self, note: str = "") -> bool:
        """Writes the next begin, and returns whether the stream took it: it takes one of a number,
        the first one."""
        start = self.at.cpus - self.left | self.joined if self.at else frozenset(range(self.cpus))
        own = frozenset() if self.leaving else self.own
        return self.streams.propose(self.at, start | own, note)
