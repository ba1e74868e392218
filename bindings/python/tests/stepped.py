"""Two machines over a Redis, stepped in turn by one thread: what comes when is no chance.

The command `run` beside it runs it. With the name of a planted fault as its word the machines have
that fault. It needs redis-server and python3-redis, and the library by the variable RCU_LIBRARY.
"""
import sys
from dataclasses import replace

sys.dont_write_bytecode = True
from machines import SOURCE, Cluster, Failure
from rcu_replica import Protocol, Streams
from rcu_replica.streams import connect

CPUS, STEPS = 2, 50  # each machine has a processor, and so many steps for what has to come
NEVER = 1e9          # seconds until what lies there is read again
PLACES = 20          # calls of Redis, at each of which a machine dies


class Stepped(Protocol):
    """A machine whose fault is planted."""

    def __init__(self, socket, cpu, planted):
        super().__init__(Streams(connect(f"unix://{socket}")), CPUS, [cpu], again=NEVER)
        self.planted = planted

    def hear(self, messages):
        if self.planted == "old-tag":  # a message with an old tag is given the new one
            messages = [replace(it, number=self.at.number, mark=self.at.mark) for it in messages]
        super().hear(messages)

    def begin(self):
        passed = set(self.passed)
        begun = super().begin()
        if self.planted == "kept-moments":  # a moment before the begin counts
            self.passed |= passed
        return begun

    def quiet(self):
        if self.planted == "open-section":  # a processor reports whose section is open
            return self.awaited & self.own - self.sent
        if self.planted == "samples":  # it counts who is outside when it looks
            return super().quiet() - self.inside.keys()
        return super().quiet()

    def renew(self):
        """Closes a section on each own processor, and opens the next one."""
        for cpu in self.own:
            self.exit(cpu)
            self.open(cpu)

    def open(self, cpu):
        if not self.enter(cpu):
            raise Failure("no section may be opened")


def go(machines, word, before=lambda machine: None):
    """Steps the machines in turn until each has returned that word. Before each step of a machine
    it does that."""
    left = list(machines)
    for _ in range(STEPS):
        waiting = []
        for it in left:
            before(it)
            if it.step(0) != word:
                waiting.append(it)
        left = waiting
        if not left:
            return
    raise Failure(f"not {word} in {STEPS} steps: {[it.number for it in left]}")


def an_old_report_comes_again(machines):
    """A grace period begins while the second machine reads, in its second section. All reports of
    the one before come once more, and nobody ends it. When the section is closed, all do."""
    first, second = machines
    go(machines, "begun")
    go(machines, "ended")
    second.open(1)
    second.renew()
    first.want()
    go(machines, "begun")
    for _ in range(STEPS):
        first.place = second.place = "0-0"
        if "ended" in (first.step(0), second.step(0)):
            raise Failure(f"too early: {first.number} ended while processor 1 reads")
    if first.awaited != {1}:
        raise Failure(f"it awaits {sorted(first.awaited)}, and not the reader")
    second.exit(1)
    go(machines, "ended")


def each_look_finds_a_section(machines):
    """Sections follow one another on each processor, and one is open at each step. A grace period
    ends all the same: each of its processors passed a moment between two sections."""
    for it in machines:
        for cpu in it.own:
            it.open(cpu)
    machines[0].want()
    for word in ("begun", "ended"):
        go(machines, word, Stepped.renew)


class Dead(Exception):
    """The machine is no more."""


class Mortal(Streams):
    """Its machine dies at a call of Redis: before that is made, or behind it."""

    def __init__(self, server, place, is_made):
        super().__init__(server)
        self.left, self.is_made = place, is_made

    def attempt(self, call):
        self.left -= 1
        if self.left:
            return super().attempt(call)
        if self.is_made:
            super().attempt(call)
        raise Dead


def live(machine):
    """A step of a machine that wants one grace period after another, and whose reader is busy."""
    if not machine.running:
        machine.want()
    for cpu in machine.own:
        if cpu in machine.inside:
            machine.exit(cpu)
        machine.enter(cpu)
    return machine.step(0)


def steps_without(server, victim, place, is_made, leaves):
    """The machine of that processor dies at that call; another one is started in its place, and
    leaves or stays. Returns how many steps it takes from then on until both have begun and ended a
    grace period that was wanted after that."""
    server.flushall()
    other = Protocol(Streams(server), CPUS, [1 - victim], again=NEVER)
    try:
        mortal = Protocol(Mortal(server, place, is_made), CPUS, [victim], again=NEVER)
        for _ in range(10 * STEPS):
            live(mortal)
            live(other)
        raise Failure(f"no call {place} was made")
    except Dead:
        pass
    heir = Protocol(Streams(server), CPUS, [victim], again=NEVER)
    if leaves:
        heir.leave()
    above = heir.want()
    for steps in range(STEPS):
        live(other)
        if leaves and not heir.has_left():
            heir.step(0)
        elif not leaves:
            live(heir)
        if other.ended > above and (heir.has_left() if leaves else heir.inside):
            return steps
    raise Failure(f"not ended in {STEPS} steps: processor {victim}'s machine died at call {place}")


def a_machine_dies_anywhere(server):
    """The machine with processor 0, and the other one, die at each of their first calls of Redis.
    What comes after that takes as many steps for the one as for the other."""
    first, second = [[steps_without(server, victim, place, is_made, leaves)
                      for place in range(1, PLACES + 1) for is_made in (False, True)
                      for leaves in (False, True)] for victim in range(CPUS)]
    if first != second:
        raise Failure(f"without processor 0's machine {first} steps, without the other {second}")


def main(words):
    planted = words[0] if words else None
    with Cluster(SOURCE, append_only=False) as cluster:
        machines = [Stepped(f"{cluster.room}/socket", cpu, planted) for cpu in range(CPUS)]
        try:
            an_old_report_comes_again(machines)
            each_look_finds_a_section(machines)
            a_machine_dies_anywhere(connect(f"unix://{cluster.room}/socket"))
        except Failure as found:
            print(found)
            return 1
    print("well")
    return 0


if __name__ == "__main__":
    sys.exit(main(sys.argv[1:]))
