"""A machine as a service embeds it: a thread that steps, sections, and waits for grace periods.

It adds no rule to those of `Protocol`: each section is opened and closed by it, and what waits for
a grace period waits for a begin that was written after the call.
"""
from __future__ import annotations

import contextlib
import logging
import threading
import time
from collections import deque
from typing import Any, Callable, Deque, Iterable, Iterator, List, Optional, Tuple

from .protocol import AGAIN, Protocol
from .streams import Stopping, Streams, connect, named

LOG = logging.getLogger("rcu_replica")
STALL = 10.0  # seconds until it tells whom it waits for, and then each time twice as many
# How long it waits before it looks at the streams again: shortly while something happens, and longer
# once nothing happened for a while. What its service asks is done at once.
SHORT, LONG, WHILE = 0.001, 0.02, 0.1


class Machine:
    """One machine of a cluster of `cpus` processors, some of which are its own.

        with Machine("redis://localhost", cpus=64, own=range(0, 22)) as machine:
            with machine.section(3):
                ...  # what is read here is not freed meanwhile, on any machine
            machine.synchronize()  # each section that is open now, on any machine, is closed
            machine.defer(free)    # the same, and calls `free` then, in the machine's own thread

    Where Redis is out of reach it waits. Where its thread stopped for good, as by `Lost`, each call
    raises what stopped it. `name` is what the others call it when they wait for it; `say` is told
    what it waits for, of a grace period after `stall` seconds (0: never); `watch` is told of each
    step: 'begun' or 'ended', and the number.
    """

    def __init__(self, url: str, cpus: int, own: Iterable[int], prefix: str = "rcu",
                 say: Callable[[str], None] = LOG.warning, again: float = AGAIN,
                 watch: Callable[[str, int], None] = lambda done, number: None,
                 timeout: float = 5.0, name: str = "", stall: float = STALL) -> None:
        self.say, self.watch, self.again, self.stall = say, watch, again, stall
        self.cpus, self.own = cpus, frozenset(own)
        self.changed = threading.Condition()
        self.is_asked_to_stop = self.is_giving_up = self.has_ended = False
        self.stopped_by: Optional[BaseException] = None
        self.streams = Streams(connect(url, timeout), prefix, say, lambda: self.is_giving_up,
                               name=name)
        self.protocol: Optional[Protocol] = None
        self.fresh: List[Callable[[], Any]] = []  # deferred, and not yet waiting for a number
        self.deferred: Deque[Tuple[int, Callable[[], Any]]] = deque()
        self.told = self.active = 0.0
        self.thread = threading.Thread(target=self.run, name="rcu-replica", daemon=True)

    # Its life

    def start(self) -> Machine:
        """Starts its thread."""
        self.thread.start()
        return self

    def close(self, timeout: float = 30.0) -> bool:
        """Leaves the cluster in order: no section is opened any more, and it stops once no begin
        names its processors. After so many seconds it stops anyway. Returns whether it left in
        order."""
        with self.changed:
            self.is_asked_to_stop = True
        self.thread.join(timeout)
        self.is_giving_up = True
        self.thread.join()
        return self.stopped_by is None

    def __enter__(self) -> Machine:
        return self.start()

    def __exit__(self, *_: object) -> None:
        self.close()

    def run(self) -> None:
        """What its thread does."""
        try:
            self.protocol = Protocol(self.streams, self.cpus, self.own, again=self.again)
            while not self.is_done(self.protocol):
                self.turn(self.protocol)
        except BaseException as error:  # it is raised by each call from now on
            self.stopped_by = error
            if not isinstance(error, Stopping):
                self.say(f"stops: {error}")
        with self.changed:
            self.has_ended = True
            self.changed.notify_all()

    def is_done(self, protocol: Protocol) -> bool:
        if self.is_giving_up:
            raise Stopping("it had not left in time")
        if not self.is_asked_to_stop or self.deferred or self.fresh:
            return False
        if not protocol.leaving:
            protocol.leave()
        return protocol.has_left()

    def turn(self, protocol: Protocol) -> None:
        """One step, and what follows from it."""
        with self.changed:
            fresh, self.fresh = self.fresh, []
        if fresh:
            above = protocol.want()
            self.deferred.extend((above, call) for call in fresh)
        now = time.monotonic()
        self.active = now if fresh else self.active
        done = protocol.step(SHORT if now < self.active + WHILE else LONG)
        if done:
            self.told, self.active = 0.0, time.monotonic()
            self.watch(done, protocol.number)
            while self.deferred and self.deferred[0][0] < protocol.ended:
                self.make_call(self.deferred.popleft()[1])
            with self.changed:
                self.changed.notify_all()
        self.tell_stall(protocol)

    def make_call(self, call: Callable[[], Any]) -> None:
        try:
            call()
        except Exception:  # it is the service's own, and stops no machine
            LOG.exception("a deferred call failed")

    def tell_stall(self, protocol: Protocol) -> None:
        """Tells whom a grace period waits for, and since when: after so many seconds, twice as
        many, and so on."""
        age = time.monotonic() - protocol.begun
        if not self.stall or not protocol.running or age < max(self.stall, 2 * self.told):
            return
        self.told = age
        since = time.strftime("%Y-%m-%d %H:%M:%S UTC", time.gmtime(protocol.begun_at))
        held = "; ".join(f"processors {named(cpus)} of {name or 'a machine that never spoke'}"
                         for name, cpus in protocol.holders().items())
        self.say(f"stall: grace period {protocol.number} has waited {age:.1f} seconds for {held} "
                 f"(since {since})")

    # What a service calls

    def at_work(self) -> Protocol:
        if self.stopped_by:
            raise self.stopped_by
        if not self.protocol or self.has_ended:
            raise Stopping("the machine does not run")
        return self.protocol

    def enter(self, cpu: int, timeout: Optional[float] = None) -> None:
        """Opens a section on an own processor. It waits until the processor may: at first, until a
        grace period was that named it."""
        if cpu not in self.own:
            raise ValueError(f"processor {cpu} is not of this machine")

        def entered() -> bool:
            if self.stopped_by:
                raise self.stopped_by
            if self.is_asked_to_stop:
                raise Stopping("the machine leaves")
            return bool(self.protocol and self.protocol.enter(cpu))

        with self.changed:
            if not self.changed.wait_for(entered, timeout):
                raise TimeoutError(f"processor {cpu} may open no section yet")

    def exit(self, cpu: int) -> None:
        """Closes a section on an own processor."""
        assert self.protocol
        self.protocol.exit(cpu)

    @contextlib.contextmanager
    def section(self, cpu: int, timeout: Optional[float] = None) -> Iterator[None]:
        """A section on an own processor. Sections on one processor may lie in or beside each other."""
        self.enter(cpu, timeout)
        try:
            yield
        finally:
            self.exit(cpu)

    def defer(self, call: Callable[[], Any]) -> None:
        """Calls that once each section that is open now, on any machine, is closed."""
        if self.stopped_by:
            raise self.stopped_by
        with self.changed:
            self.fresh.append(call)
        if self.protocol:
            self.protocol.wake.set()

    def synchronize(self, timeout: Optional[float] = None) -> None:
        """Waits until each section that is open now, on any machine, is closed. It is not to be
        called within a section, nor in a deferred call."""
        over = threading.Event()
        self.defer(over.set)

        def is_over() -> bool:
            if self.stopped_by and not over.is_set():
                raise self.stopped_by
            return over.is_set() or self.has_ended

        with self.changed:
            self.changed.wait_for(is_over, timeout)
        if not over.is_set():
            raise (Stopping("the machine has left") if self.has_ended
                   else TimeoutError("the grace period did not end in time"))

    def status(self) -> dict[str, Any]:
        """Where it stands, as of now: for a line of JSON."""
        protocol, now = self.protocol, time.monotonic()
        if not protocol:
            return {"number": 0, "running": False, "waits_for_redis": self.streams.waiting.why}
        with protocol.lock:
            return {
                "number": protocol.number, "running": protocol.running,
                "awaited": named(protocol.awaited) if protocol.running else "",
                "awaited_of": {name: named(cpus) for name, cpus in protocol.holders().items()
                               if protocol.running},
                "age": round(now - protocol.begun, 3), "ended": protocol.ends,
                "open_sections": named(protocol.inside), "may_enter": named(protocol.let_in),
                "sent_again": protocol.sent_again, "read_again": protocol.read_again,
                "deferred": len(self.deferred) + len(self.fresh),
                "waits_for_redis": self.streams.waiting.why,
                "stopped_by": str(self.stopped_by or ""),
            }
