"""Processors that come and go. No tracepoint fires on a CPU that is not online, so the place of an
arrival or a departure is a window, which the next masks settle."""
import re

from comparison import Unusable, awaited_as_said
from quiescence import NO_READERS


class Hotplug:
    """A part of a replay, by cpuhp_enter, cpuhp_exit and the words cpuonl and cpuofl."""

    def __init__(self):
        self.arriving, self.dying = set(), set()
        # Of a stretch that begins in the midst: CPUs that may have begun to come or to go before.
        self.may_arrive, self.may_die = set(), set()
        self.named = {}  # of a CPU: the one that cpuhp_enter named there last

    def cpuhp_enter(self, event):
        found = re.match(r"cpu: (\d+) target: *(\d+) step: *(\d+) ", event.text)
        if not found:
            return
        cpu, target, step = map(int, found.groups())
        self.named[event.cpu] = cpu
        # (In Linux 6.1 the boot CPU has the target 0 while it is up, as a driver sets up a state.)
        is_down = target == 0 < step and (cpu > 0 or "(takedown_cpu)" in event.text)
        if is_down and cpu != event.cpu and cpu in self.online:
            self.dying.add(cpu)
            self.may_die.discard(cpu)

    def cpuhp_exit(self, event):
        found = re.match(r"cpu: (\d+) +state: *(\d+) step: *(\d+) ret: *-?\d+", event.text)
        if not found:
            return
        cpu, state, step = map(int, found.groups())
        is_down = state == step - 1  # a step down: takedown_cpu, or one below it
        if event.cpu != cpu and cpu in self.dying and (is_down or cpu not in self.may_die):
            self.depart(cpu, event)

    def name_arrival(self, event, _):
        """cpuonl does not say which CPU: the cpuhp_enter before it on that CPU does."""
        cpu = self.named.get(event.cpu, -1)
        self.arriving.add(cpu)
        self.may_arrive.discard(cpu)

    def go_offline(self, event, _):
        cpu, blocks = event.cpu, event.words[2] == "cpuofl-bgp"
        self.dying.add(cpu)
        self.say("awaits", "goings offline (cpuofl, cpuofl-bgp)", event,
                 lambda it: None if (str(cpu) in it.split()[1:]) == blocks else
                 f"Linux says that CPU {cpu} goes offline "
                 f"{'while' if blocks else 'and is not'} blocking the grace period; the engine "
                 f"waits for {awaited_as_said(it)}")

    def arrive(self, cpu):
        self.arriving.discard(cpu)
        self.may_arrive.discard(cpu)
        self.online.add(cpu)
        self.want(f"online {cpu}", "arrivals", self.event, "online",
                  f"CPU {cpu} comes online in Linux")

    def depart(self, cpu, event):
        if cpu == 0:
            raise Unusable(f"line {event.line}: CPU 0 goes offline, as the engine's never does")
        self.dying.discard(cpu)
        self.online.discard(cpu)
        self.idle.discard(cpu)
        if cpu in self.waits:
            self.waits.discard(cpu)
            if self.period:
                self.period.heard.append((cpu, event, "went offline"))
            self.seen["departures of an awaited CPU"] += 1
        for table in (self.quiet, self.waking):
            table.pop(cpu, None)
        self.say(f"tend {cpu}")  # rcutree_migrate_callbacks calls rcu_advance_cbs before and after
        self.say(f"offline {cpu}", "departures", event,
                 lambda it: None if it.startswith("offline moved") else
                 f"CPU {cpu} goes offline in Linux; the engine says '{it}'")
        self.say("tend 0")
        self.moved[cpu] = self.ids

    def may_be_over(self):
        """Whether a grace period waits for CPUs alone that are being taken down: their reports have
        no event, nor has the root's report if theirs are the last ones."""
        return self.without_readers(self.waits) <= self.dying - self.may_die \
            and not any(self.blockers.values())

    def hear_departed(self, first, last, event):
        """A CPU of this range that is being taken down is heard of silently."""
        for cpu in sorted(self.dying & self.waits):
            if not first <= cpu <= last:
                continue
            if cpu not in self.idle:
                self.quiet[cpu] = self.make_report(cpu)
            line = f"scan {cpu}" if cpu in self.idle else f"deliver {self.quiet[cpu]}"
            self.hear(cpu, event, "silently, as it went offline", line)
            for leaf, readers in self.tree.readers.items():
                rest = self.waits & set(range(leaf[0], leaf[1] + 1))
                if leaf[0] <= cpu <= leaf[1] and not rest and readers in self.waits \
                        and not self.blockers[leaf]:
                    self.end_readers(leaf, event, NO_READERS)
