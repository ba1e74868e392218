"""Grace periods: their starts, the sets that they await, and their ends."""
import sys

from comparison import apart, awaited_as_said, cpus, members, snapshot
from periods import words_of_grace_period
from quiescence import NO_READERS

# The engine's second grace period. A CPU that is being taken down as a stretch begins is gone then.
SECOND = 5


class GracePeriods:
    """A part of a replay, by the event rcu_grace_period."""

    def __init__(self):
        self.begun = set()  # the leaves at which the start is known
        self.before = 0  # the number that callbacks waited for just before the start
        self.late = []  # what is invoked between the end in a leaf and that in the root
        self.is_boot = False

    def rcu_grace_period(self, event):
        number, what = words_of_grace_period(event)
        if what in ("start", "reqwait", "cpustart"):
            self.end_at_boot(event, number // 4 * 4)
        handle = {"start": self.start, "end": self.end, "cpustart": self.note,
                  "cpuqs": self.quiesce, "cpuonl": self.name_arrival, "cpuofl": self.go_offline,
                  "cpuofl-bgp": self.go_offline, "AccWaitCB": self.accelerate,
                  "AccReadyCB": self.accelerate, "fqsstart": self.scan}.get(what)
        if handle:
            handle(event, number)
        else:
            self.seen[f"not used: rcu_grace_period {what}"] += 1

    def start(self, event, number):
        period = self.period = self.ahead.period_at[self.place]
        awaited = period.awaited()
        for cpu in sorted((self.arriving | self.may_arrive) & awaited):
            self.arrive(cpu)
        for cpu in sorted((self.dying & self.online) - awaited):
            if period.inits:
                self.depart(cpu, event)
        self.number = tag = number - self.base
        if tag > SECOND:
            self.dying -= self.may_die
            self.may_die = set()
        self.begun, self.scans, self.expedited = set(), 0, self.expedites
        self.before = snapshot(self.number - 1)
        self.waits = awaited | set(self.tree.readers.values())
        self.say("begin", "starts", event, lambda it: None if it.startswith(f"begun {tag} ") else
                 f"Linux starts grace period {number}; the engine says '{it}', and would begin "
                 f"number {tag}")
        if period.inits:
            self.compare_sets(event, period, awaited)
        else:
            self.seen["grace periods without rcu_grace_period_init"] += 1

    def compare_sets(self, event, period, awaited):
        """The set at the start, in the leaves and in the nodes above."""
        number = period.number
        self.say("awaits", "sets at the start", event,
                 lambda it: None if self.without_readers(members(it)) == awaited else
                 f"at the start of grace period {number} Linux waits for {cpus(awaited)} (the "
                 f"leaves' qsmask in rcu_grace_period_init), the engine for {awaited_as_said(it)}: "
                 f"{apart(awaited, members(it))}")
        for (level, first, last), mask in period.inits.items():
            if level == self.tree.depth:
                leaf = first, last
                if leaf in self.blocked and not mask and not (
                        self.may_block(leaf) and period.is_in_parent(level, first, last)):
                    self.end_readers(leaf, event, NO_READERS)
                continue
            below = period.below(level, first, last)
            ought = sum(1 << bit for bit, (low, high) in enumerate(below)
                        if period.inits[level + 1, low, high])
            # (A leaf without a CPU is waited for as long as preempted readers of it are there.)
            either = sum(1 << bit for bit, leaf in enumerate(below) if self.may_block(leaf))
            self.compare("inner masks at the start", event, ought | either == mask | either,
                         f"grace period {number}: node {first}-{last} of level {level} begins with "
                         f"qsmask {mask:#x}, and its children's masks make {ought:#x}")

    def scan(self, _, __):
        self.scans += 1

    def note(self, event, number):
        cpu, tag = event.cpu, number - self.base
        if number % 4 == 0:
            self.seen["not used: cpustart of an idle number"] += 1
            return
        self.quiet.pop(cpu, None)
        self.noted[cpu] = tag
        self.say(f"note {cpu}", "notes", event,
                 lambda it: None if it.startswith(f"noted {tag} ") else
                 f"CPU {cpu} notes grace period {number} in Linux; the engine says '{it}', so "
                 "that one does not run there")

    def end(self, event, number):
        if not self.period:
            return
        self.hear_departed(0, sys.maxsize, event)
        ended = (number | 3) + 1 - self.base
        self.say("awaits", "nobody is awaited at an end", event,
                 lambda it: None if members(it) == set() else
                 f"Linux ends grace period {number} while {awaited_as_said(it)} "
                 f"{'has' if len(members(it)) == 1 else 'have'} not reported: the engine still "
                 "waits")
        self.want("end", "ends", event, f"ended {ended}", f"Linux ends grace period {number}")
        self.number, self.period = ended, None
        late, self.late = self.late, []
        for act in late:
            act()

    def end_at_boot(self, event, number):
        """Early in boot synchronize_rcu is a grace period by itself, and leaves no event but the
        number."""
        while self.is_boot and not self.period and self.online == {0} \
                and self.number < number - self.base:
            self.before = snapshot(self.number)
            self.number += 4
            self.say("begin")
            for cpu in [0, *self.tree.readers.values()]:
                self.say(f"deliver {self.make_report(cpu)}")
            self.want("end", "grace periods of early boot without events", event,
                      f"ended {self.number}", "a grace period of early boot")

    def rcu_future_grace_period(self, event):
        self.end_at_boot(event, int(event.words[1]) // 4 * 4)

    def rcu_grace_period_init(self, event):
        leaf = int(event.words[3]), int(event.words[4])
        if int(event.words[2]) == self.tree.depth:
            self.begun.add(leaf)
            if leaf in self.blocked:
                self.blockers[leaf] = set(self.blocked[leaf])
