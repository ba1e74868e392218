"""The simulation: many machines in one process, with drawn deliveries.

Each machine has a replica (replica_model) and some processors. Messages get lost, come twice, and
come in another order, some of them long after; so they are sent again until an answer makes that
needless. Readers open and close sections all the time. A busy reader opens the next one at the tick
at which it closes one, so whenever its machine looks a section is open. Processor 0 of a replica is
of no machine; the last machine has the processors behind it, is killed, comes back and departs.
"""
import heapq
import random
from dataclasses import dataclass
from typing import Optional

from model import Replica, bits, members

EACH = 4                # processors of a machine
LOST, TWICE, LATE = 0.1, 0.1, 0.02  # shares of messages
DELAY, LONG = 20, 800   # ticks until a message comes, at most; and until a late one does
AGAIN, MOST = 150, 1200  # ticks until it is sent again; each time takes twice as long, to the most
OPEN, CLOSED = 40, 1600  # ticks of a section, and between two, at most
BUSY, LOOK = 300, 10    # ticks of a busy reader's section; and until a machine looks, at most
LIMIT = 20_000          # ticks that anything may take: longest seen were 3,000
PLANTED = ("old-tag", "unbegun-merge", "samples", "kept-moments")
BUSY_ALONE = ("samples",)  # readers that rest do not show it


@dataclass(frozen=True)
class Shape:
    """So many machines, which report to machine 0: each by itself (flat), or by a tree in which
    each has so many children; and whether their readers are busy."""

    machines: int
    fanout: Optional[int] = None
    is_busy: bool = False

    def __str__(self):
        return (f"{self.machines:,} machines, {'tree' if self.fanout else 'flat'}"
                f"{', busy readers' if self.is_busy else ''}")


class Node:
    """A machine: its replica, its processors, and the machine that it reports to."""

    def __init__(self, place, parent, own, cpus, make):
        self.place, self.parent, self.children = place, parent, []
        self.own = bits(own)
        self.below = self.own  # the processors of those that report to it, too
        self.make, self.cpus = make, cpus
        self.received = 0
        self.start_anew()

    def start_anew(self):
        """As it is at first, and when it comes back: it knows nothing."""
        self.replica, self.told, self.greatest = self.make(self.cpus), 0, 0
        self.begins = {}  # each start set by its number
        self.passed, self.will_look = set(), False  # who left its sections since the begin

    def is_running(self, tag):
        return tag & 3 == 1 and self.replica.value == tag


class Simulation:
    """Machines of such a shape. In a tree each ships its merged replica upward once nobody below it
    is awaited."""

    def __init__(self, shape, seed, planted=None, make=Replica):
        self.source, self.planted, self.is_busy = random.Random(seed), planted, shape.is_busy
        self.time, self.order, self.events = 0, 0, []
        self.is_flat, self.cpus = shape.fanout is None, range(1, EACH * shape.machines + 1)
        self.nodes = []
        for place in range(shape.machines):
            above = None if place == 0 else self.nodes[
                0 if self.is_flat else (place - 1) // shape.fanout]
            own = self.cpus[EACH * (shape.machines - 1 - place):][:EACH]
            self.nodes.append(Node(place, above, own, self.cpus.stop, make))
            if above:
                above.children.append(self.nodes[-1])
        for node in reversed(self.nodes[1:]):
            node.parent.below |= node.below
        self.open, self.old, self.departing, self.departed, self.dead = set(), {}, set(), 0, set()
        self.held, self.early, self.sent, self.looks, self.old_sections = set(), [], 0, 0, 0
        self.old_of = {}  # those of the sets in `old` that a processor is in
        self.ended = {}  # by number, the machines that ended that grace period
        for cpu in self.cpus:
            self.after(OPEN if self.is_busy else CLOSED, self.enter, cpu)

    def draw(self, below):
        return int(self.source.random() * below)

    def drawn(self, share):
        return self.source.random() < share

    def after(self, most, call, *given):
        """Calls that at a drawn tick, within so many from now."""
        self.order += 1
        event = (self.time + 1 + self.draw(most), self.order, call, given)
        heapq.heappush(self.events, event)

    # Messages

    def send(self, node, *message):
        self.sent += 1
        if self.drawn(LOST):
            return
        for _ in range(1 + self.drawn(TWICE)):
            self.after(LONG if self.drawn(LATE) else DELAY, self.deliver, node, *message)

    def deliver(self, node, kind, sender, tag, *rest):
        if node in self.dead:
            return
        node.received += 1
        {"begin": self.take_begin, "behind": self.take_behind, "report": self.take_report,
         "depart": self.take_depart, "state": self.take_state}[kind](node, sender, tag, *rest)

    def repeat(self, holds, wait, node, *message):
        """Sends a message, and again as long as that holds."""
        if holds():
            self.send(node, *message)
            self.after(wait, self.repeat, holds, min(2 * wait, MOST), node, *message)

    def take_begin(self, node, sender, tag, start):
        """Begins go by their numbers. Who gets a later one says which number it has."""
        value, node.greatest = node.replica.value, max(node.greatest, tag)
        if value & 3 == 0 and tag == value + 1:
            if self.planted == "unbegun-merge" and self.drawn(0.05):
                self.send(sender, "state", node, tag, start, node.replica.awaited)
            self.begin(node, start)
            self.catch_up(node)
        elif tag > value:
            self.send(sender, "behind", node, value)

    def catch_up(self, node):
        """Says again and again which number it has, while it knows of a greater begin."""
        value = node.replica.value
        if node.greatest > value:
            self.repeat(lambda: node.replica.value == value, AGAIN, node.parent, "behind", node,
                        value)

    def take_behind(self, node, sender, value):
        """A machine is at that number: it may want the next begin, or that this one is ended."""
        if value & 3 == 0 and value + 1 in node.begins:
            self.send(sender, "begin", node, value + 1, node.begins[value + 1])
        elif value & 3 and value < node.replica.value:
            self.send(sender, "state", node, value, node.begins[value], 0)

    def take_report(self, node, sender, tag, cpu):
        if self.planted == "old-tag":
            tag = node.replica.tag
        if node.replica.report(cpu, tag) in ("taken", "last"):
            self.settle(node)
        self.take_behind(node, sender, tag)

    def take_depart(self, node, _, tag, cpu):
        """(A departure's line has no number, so it is compared here.)"""
        if node.is_running(tag):
            self.departed |= 1 << cpu
            node.replica.depart(cpu)
            self.settle(node)

    def take_state(self, node, sender, tag, start, awaited):
        """A whole replica: it is merged where both began alike."""
        if self.planted == "old-tag":
            tag, start = node.replica.tag, node.replica.start
        if node.is_running(tag):
            other = Replica(node.cpus)
            other.tag, other.start, other.awaited = tag, start, awaited
            node.replica.merge(other)
            self.settle(node)
        elif awaited:
            self.take_behind(node, sender, tag)

    # Grace periods

    def begin(self, node, start):
        tag = node.replica.begin(start)
        node.begins[tag], node.told = start, 0
        if self.planted != "kept-moments":
            node.passed.clear()
        for child in node.children:
            self.repeat(lambda child=child: node.is_running(tag) and node.replica.awaited
                        & child.below, AGAIN, child, "begin", node, tag, start)
        self.look(node)

    def look(self, node):
        """The machine looks which of its processors passed a quiescent state since the begin."""
        node.will_look = False
        if node in self.dead or not node.is_running(node.replica.tag):
            return
        for cpu in members(node.own & node.replica.awaited):
            if cpu not in self.open or cpu in node.passed and self.planted != "samples":
                self.quiet(node, cpu)
        self.settle(node)

    def quiet(self, node, cpu):
        """The processor notes its machine's number, and reports it. It departs if it is to, and no
        section is open on it."""
        tag = node.replica.tag
        if cpu in self.departing and cpu not in self.open:
            node.replica.depart(cpu)
            if node.parent:
                self.repeat(lambda: node.is_running(tag), AGAIN, self.nodes[0], "depart", node, tag,
                            cpu)
        elif node.replica.report(cpu, tag) in ("taken", "last"):
            if self.is_flat and node.parent:
                self.repeat(lambda: node.is_running(tag), AGAIN, node.parent, "report", node, tag,
                            cpu)

    def settle(self, node):
        """Ends where nobody is awaited; else says upward that nobody below is."""
        replica, tag = node.replica, node.replica.tag
        if not node.is_running(tag):
            return
        if not replica.awaited:
            self.end(node, tag)
        elif not self.is_flat and node.parent and node.told != tag and (
                not replica.awaited & node.below):
            node.told = tag
            self.repeat(lambda: node.is_running(tag), AGAIN, node.parent, "state", node, tag,
                        replica.start, replica.awaited)

    def end(self, node, tag):
        self.looks += 1
        if self.old[tag]:
            self.early.append(f"machine {node.place} ended {tag} while processors "
                              f"{sorted(self.old[tag])[:5]} read what is older")
        node.replica.end()
        self.ended.setdefault(tag, set()).add(node.place)
        for child in node.children:
            self.send(child, "state", node, tag, node.replica.start, 0)
        self.catch_up(node)

    # Readers

    def node_of(self, cpu):
        return self.nodes[-1 - (cpu - 1) // EACH]

    def enter(self, cpu):
        if self.node_of(cpu) in self.dead:
            self.after(CLOSED, self.enter, cpu)
        elif cpu not in self.departing:
            self.open.add(cpu)
            self.after(BUSY if self.is_busy else OPEN, self.exit, cpu)

    def exit(self, cpu):
        if cpu in self.held:
            self.after(OPEN, self.exit, cpu)
            return
        self.open.discard(cpu)
        for old in self.old_of.pop(cpu, ()):
            self.old_sections += cpu in old
            old.discard(cpu)
        node = self.node_of(cpu)
        if not node.will_look and (cpu not in node.passed or cpu in self.departing):
            node.will_look = True
            self.after(LOOK, self.look, node)
        node.passed.add(cpu)
        if self.is_busy:
            self.enter(cpu)
        else:
            self.after(CLOSED, self.enter, cpu)

    # The course of a run

    def start_next(self):
        """Machine 0 begins a grace period: what is open now is old in it."""
        root = self.nodes[0]
        tag = root.replica.value + 1
        self.old[tag] = set(self.open)
        for cpu in self.open:
            self.old_of.setdefault(cpu, []).append(self.old[tag])
        self.begin(root, bits(self.cpus) & ~self.departed)

    def run_until(self, holds, ticks=LIMIT):
        """Takes events until that holds; returns whether it did, within the ticks."""
        last = self.time + ticks
        while not holds() and self.time < last:
            self.time, _, call, given = heapq.heappop(self.events)
            call(*given)
        return holds()

    def kill(self, node):
        """Its readers are no more, nor is what it knew. It comes back after a while."""
        self.dead.add(node)
        for cpu in members(node.own):
            self.open.discard(cpu)
            for old in self.old_of.pop(cpu, ()):
                old.discard(cpu)
        self.after(300, self.revive, node)

    def revive(self, node):
        self.dead.discard(node)
        node.start_anew()


def why_it_fails(shape, periods, seed, planted=None, make=Replica):
    """Runs so many grace periods on all machines, and one more that stays open. In the middle two
    machines are killed, and come back, and one of them departs. Returns what is wrong, None where
    nothing is, and the messages a grace period: of all, and of the machine that gets the most."""
    run = Simulation(shape, seed, planted, make)
    root, killed, leaver = run.nodes[0], run.nodes[1], run.nodes[-1]
    run.run_until(lambda: len(run.open) >= (len(run.cpus) if shape.is_busy else 2))
    for period in range(periods):
        run.start_next()
        if period == periods // 3:
            run.kill(killed)
            run.kill(leaver)
        if period == periods // 2:
            run.departing |= set(members(leaver.own))
        if not run.run_until(lambda: run.early or root.replica.value == 4 * period + 4):
            return f"no end of {root.replica.tag}", None
        if run.early:
            return run.early[0], None
    ended = run.ended[4 * periods - 3]  # (who departed need not hear)
    if not run.run_until(lambda: len(ended) - (leaver.place in ended) == shape.machines - 1):
        return f"not all ended {periods} grace periods", None
    counts = run.sent / periods, max(it.received for it in run.nodes) / periods
    held = set(list(members(root.own))[1:])
    run.held = held
    run.run_until(lambda: held <= run.open)
    run.start_next()
    run.run_until(lambda: root.replica.awaited == bits(held))
    run.run_until(lambda: False, 2000)
    if run.early or root.replica.awaited != bits(held):
        return "the last one awaits others than those in a section", None
    if any(it.replica.start & leaver.own for it in run.nodes[:-1]):
        return "who departed is still awaited", None
    if not run.old_sections:
        return "no section was open at any begin", None
    return None, counts
