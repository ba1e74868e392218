"""What is known of a grace period ahead of its events: who is awaited, and which waking a later
scan counts. And the state at each moment, whichever comparison runs."""
import re


def bits(mask):
    return [bit for bit in range(mask.bit_length()) if mask >> bit & 1]


class Period:
    """One grace period, as Linux's trace has it. `heard`: a processor, the event, and how."""

    def __init__(self, number, start):
        self.number, self.start, self.end = number, start, None
        self.inits, self.heard, self.rooted, self.is_stalled = {}, [], None, False

    def leaves(self):
        deepest = max((level for level, _, _ in self.inits), default=0)
        return {(first, last): mask for (level, first, last), mask in self.inits.items()
                if level == deepest}

    def awaited(self):
        return {first + bit for (first, _), mask in self.leaves().items() for bit in bits(mask)}

    def below(self, level, first, last):
        """The ranges of a node's children, in order."""
        return sorted((low, high) for (at, low, high) in self.inits
                      if at == level + 1 and first <= low and high <= last)

    def is_in_parent(self, level, first, last):
        """Whether the bit of a node is in its parent's mask at the start."""
        for (at, low, high), mask in self.inits.items():
            if at == level - 1 and low <= first and last <= high:
                return bool(mask >> self.below(at, low, high).index((first, last)) & 1)
        return True


def words_of_grace_period(event):
    """The number and the word of an rcu_grace_period event."""
    return int(event.words[1]), event.words[2]


class Ahead:
    """What is known ahead of a window, which is looked through before it is compared. Of a grace
    period that is longer than a window, the rest is not known: `is_open`."""

    def __init__(self):
        self.running, self.scans, self.woke, self.idle = None, 0, {}, {}
        self.period_at, self.waking_tells, self.over, self.is_open = {}, set(), [], False

    def look(self, window):
        self.period_at, self.waking_tells = {}, set()
        self.woke.clear()  # (their places were in the window before)
        for place, event in enumerate(window):
            look = getattr(self, event.name, None)
            if look:
                look(place, event)
        self.is_open = self.running is not None

    def rcu_grace_period(self, place, event):
        number, what = words_of_grace_period(event)
        if what == "start":
            self.cut()
            self.running = self.period_at[place] = Period(number, event)
            self.woke.clear()
            self.scans = 0
        elif what == "fqsstart":
            self.scans += 1
            if self.scans == 1:  # rcu_watching_snap_save: an idle time before it does not count
                self.woke.clear()
        elif what == "end" and self.running:
            self.running.end = event
            self.cut()

    def cut(self):
        """No more is known of the grace period that runs, if one does."""
        if self.running:
            self.over.append(self.running)
        self.running = None

    def take_over(self):
        """The grace periods that are over, each once."""
        over, self.over = self.over, []
        return over

    def forget(self):
        """Events are missing: who is idle is not known any more."""
        self.idle.clear()

    def rcu_grace_period_init(self, _, event):
        number, level, first, last = map(int, event.words[1:5])
        if self.running and number == self.running.number:
            self.running.inits[level, first, last] = int(event.words[5], 16)

    def rcu_stall_warning(self, _, __):
        if self.running:
            self.running.is_stalled = True

    def rcu_watching(self, place, event):
        what, cpu = event.words[0], event.cpu
        if what in ("End", "Endirq", "Start", "Startirq"):
            self.idle[cpu] = what.startswith("End")
            if not self.idle[cpu]:
                self.woke[cpu] = place

    rcu_dyntick = rcu_watching

    def rcu_fqs(self, _, event):
        cpu = int(event.words[2])
        if event.words[3] == "dti" and not self.idle.get(cpu, False) and cpu in self.woke:
            self.waking_tells.add(self.woke[cpu])


class Tree:
    """The tree of a kernel, by the leaves of its first grace period, and whether its readers may be
    preempted: then one processor more stands for the blocked readers of each leaf."""

    def __init__(self, period, is_preemptible):
        self.leaves = sorted(period.leaves())
        self.depth = max(level for level, _, _ in period.inits)
        self.cpus = self.leaves[-1][1] + 1
        self.readers = {leaf: self.cpus + place for place, leaf in enumerate(self.leaves)} \
            if is_preemptible else {}

    def processors(self):
        return self.cpus + len(self.readers)

    def words(self):
        """The options of `rcu script`."""
        leaf, inner = self.fanouts()
        return ["--leaf", str(leaf), "--inner", str(inner), "--cpus", str(self.processors())]

    def fanouts(self):
        """The fanouts of the engine's tree: any do, as both await by processors."""
        pairs = [(2, 2, 16), (2, 3, 54), (4, 4, 256), (16, 64, 4096), (64, 64, 4096)]
        widths = {last - first + 1 for first, last in self.leaves}
        return next(pair[:2] for pair in pairs if self.processors() <= pair[2]
                    and (pair[0] in widths or pair[2] == 4096))

    def leaf_of(self, cpu):
        return next(leaf for leaf in self.leaves if leaf[0] <= cpu <= leaf[1])


# The first step down to CPUHP_OFFLINE, which another CPU takes (takedown_cpu), and each end of one.
TAKEN_DOWN = re.compile(r"cpu: (\d+) target: *0 step: *[1-9]")
STEP_ENDED = re.compile(r"cpu: (\d+) +state: *\d+ step: *\d+ ret: *-?\d+")


class Standing:
    """The state after the events so far: who is idle, who is being taken down, and which readers of
    a leaf are preempted. A comparison that begins in the midst begins with it."""

    def __init__(self):
        self.watched, self.dying, self.blocked = {}, set(), {}
        self.periods = 0  # how many have started: what came before is over after some

    def take(self, event):
        take = getattr(self, event.name, None)
        if take:
            take(event)

    def rcu_grace_period(self, event):
        self.periods += event.words[2] == "start"

    def rcu_watching(self, event):
        if event.words[0] in ("End", "Endirq", "Start", "Startirq"):
            self.watched[event.cpu] = event.words[0].startswith("End")

    rcu_dyntick = rcu_watching

    def cpuhp_enter(self, event):
        found = TAKEN_DOWN.match(event.text)
        if found and int(found[1]) != event.cpu:
            self.dying.add(int(found[1]))

    def cpuhp_exit(self, event):
        found = STEP_ENDED.match(event.text)
        if found and int(found[1]) != event.cpu:
            self.dying.discard(int(found[1]))

    def rcu_preempt_task(self, event):
        self.blocked[int(event.words[2])] = event

    def rcu_unlock_preempted_task(self, event):
        if not event.words[0].endswith("-GPS"):
            self.blocked.pop(int(event.words[2]), None)
