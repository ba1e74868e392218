"""Quiescent states: of a CPU itself, of one that is idle, and of readers that were preempted."""
import collections
import re

from comparison import apart, cpus, members
from periods import bits

NO_READERS = "no reader was preempted in the leaf"
# Tasks that call rcu_momentary_eqs, which leaves no event: multi_cpu_stop again and again, and
# those that invoke offloaded callbacks. From its second scan on, Linux asks a CPU to call it, too
# (rcu_need_heavy_qs), in a context switch or in cond_resched.
CALL_MOMENTARY_EQS, ASKING_SCAN = ("migration/", "rcuos/", "rcuop/"), 2


class QuiescentStates:
    """A part of a replay, by the events rcu_watching, rcu_fqs, rcu_quiescent_state_report,
    rcu_preempt_task and rcu_unlock_preempted_task."""

    def __init__(self):
        self.quiet = {}  # of a CPU: its last report
        self.noted = {}  # of a CPU: the number that it noted last
        self.scans = 0  # of the grace period that runs
        self.waking = {}  # of a CPU: the report of a waking that a later scan counts
        self.scanned = collections.defaultdict(set)  # by task: who was found idle (dti)
        self.task = {}  # of a CPU: the task of its last event
        self.unknown = set()  # the CPUs that may have been idle as the trace began
        # Of each leaf the readers that are preempted, and those that block the grace period.
        self.blocked = {leaf: {} for leaf in self.tree.readers}
        self.blockers = {leaf: set() for leaf in self.tree.readers}
        self.older = set()  # the leaves that may have readers of before the trace began
        # Whether an expedited grace period runs, or did since the start of the one that runs.
        self.expedites, self.expedited = False, False

    def without_readers(self, found):
        """The CPUs, without the processors that stand for preempted readers."""
        return {it for it in found if it < self.tree.cpus}

    def quiesce(self, event, _):
        cpu = event.cpu
        if cpu not in self.online or cpu in self.idle:
            self.seen["cpuqs of a CPU that is idle or offline in the engine"] += 1
            return
        report = self.reports + 1
        self.reports = self.quiet[cpu] = report
        self.say(f"quiet {cpu}", "quiescent states (cpuqs)", event,
                 lambda it: None if it.startswith(f"report {report} cpu {cpu} ") else
                 f"CPU {cpu} passes a quiescent state in Linux; the engine says '{it}'")

    def rcu_fqs(self, event):
        if event.words[3] == "dti":
            self.scanned[event.task].add(int(event.words[2]))

    def rcu_watching(self, event):
        cpu, what = event.cpu, event.words[0]
        if cpu not in self.online:
            return
        if cpu in self.unknown and what in ("Start", "Startirq"):
            self.find_idle(cpu)
        self.unknown.discard(cpu)
        if what in ("End", "Endirq") and cpu not in self.idle:
            self.idle.add(cpu)
            self.want(f"idle {cpu}", "goings idle", event, "idle", f"CPU {cpu} goes idle in Linux")
        elif what in ("Start", "Startirq") and cpu in self.idle:
            self.idle.discard(cpu)
            self.want(f"wake {cpu}", "wakings", event, "awake", f"CPU {cpu} wakes in Linux")
            if self.place in self.ahead.waking_tells or self.ahead.is_open:
                self.waking[cpu] = self.make_report(cpu)

    rcu_dyntick = rcu_watching

    def find_idle(self, cpu):
        """A CPU of which the trace had no event so far was idle as it began."""
        self.unknown.discard(cpu)
        self.idle.add(cpu)
        self.say(f"idle {cpu}")

    # ---- reports

    def rcu_quiescent_state_report(self, event):
        if not self.period:
            return
        number, level, first, last = map(int, (event.words[1], *event.words[3:6]))
        running = self.linux(self.number)
        self.compare("numbers of reports", event, number == running,
                     f"grace period {running} runs, but Linux takes a report for grace period "
                     f"{number}")
        mask, left = (int(it, 16) for it in event.words[2].split(">"))
        if level == 0 and left == 0 and event.words[6] == "0":
            self.period.rooted = event
        if level < self.tree.depth:
            self.report_to_inner(event, (level, first, last), mask, left)
        else:
            self.report_to_leaf(event, (first, last), mask, left)

    def report_to_leaf(self, event, leaf, mask, left):
        first, last = leaf
        number, scanned = int(event.words[1]), self.scanned.pop(event.task, set())
        for bit in range(last - first + 1):
            if not (mask | left) >> bit & 1:
                self.hear_departed(first + bit, first + bit, event)
        for bit in bits(mask):
            self.report(first + bit, event, first + bit in scanned)
        still = {first + bit for bit in bits(left)}
        if leaf in self.blocked:
            self.compare_readers(event, leaf, mask, left)

        def wrong(reply):
            here = {it for it in members(reply) if first <= it <= last}
            return None if here == still else (
                f"grace period {number}: after this report leaf {first}-{last} of Linux still "
                f"waits for {cpus(still)} (qsmask {left:#x}), the engine for {cpus(here)} there: "
                f"{apart(still, here)}")
        self.say("awaits", "sets after a report", event, wrong)

    def compare_readers(self, event, leaf, mask, left):
        """Whether preempted readers block a leaf, and if they are done, that they are heard of."""
        blocked, readers = event.words[6] != "0", self.blockers[leaf]
        if not blocked:
            self.older.discard(leaf)
        elif not readers and leaf in self.older:
            self.seen["leaves that are blocked by readers of before the trace began"] += 1
            return
        if blocked and not readers and self.expedited and self.blocked[leaf]:
            # (rcu_preempt_ctxt_queue: one that blocks an expedited grace period blocks this one.)
            self.seen["leaves that are blocked by readers of an expedited grace period"] += 1
            return
        named = ", ".join(f"task {it}" for it in sorted(readers)) or "none"
        self.compare("blocked readers (gp_tasks)", event, blocked == bool(readers),
                     f"grace period {event.words[1]}: Linux says that leaf {leaf[0]}-{leaf[1]} is "
                     f"{'' if blocked else 'not '}blocked by preempted readers; by "
                     f"rcu_preempt_task and rcu_unlock_preempted_task it is by {named}")
        if not left and not blocked and self.tree.readers[leaf] in self.waits:
            self.end_readers(leaf, event, NO_READERS if mask else
                             "the last one that was preempted left its section")

    def report(self, cpu, event, scanned):
        """How the engine hears of a CPU that Linux takes a report of."""
        number = event.words[1]
        if scanned and cpu in self.unknown:
            self.find_idle(cpu)
        if scanned and cpu in self.idle:
            self.hear(cpu, event, "scan of an idle CPU (rcu_fqs dti)", f"scan {cpu}")
        elif scanned and cpu in self.waking:
            self.hear(cpu, event, "scan: idle since the snapshot, awake again (rcu_fqs dti)",
                      f"deliver {self.waking.pop(cpu)}")
        elif cpu in self.dying - self.may_die and event.cpu != cpu:
            self.report_for_departed(cpu, event)
        elif cpu in self.quiet and (self.noted.get(cpu) == self.number
                                    or not self.may_be_momentary(cpu, scanned)):
            how = "scan: of one that was quiet meanwhile (rcu_fqs dti)" if scanned else \
                "its own report" if event.cpu == cpu else f"a report by CPU {event.cpu}"
            self.hear(cpu, event, how, f"deliver {self.quiet[cpu]}")
        elif self.may_be_momentary(cpu, scanned):
            self.hear(cpu, event, "scan: rcu_momentary_eqs, which has no event (rcu_fqs dti)",
                      f"deliver {self.make_report(cpu)}")
        elif cpu in self.may_die and event.cpu != cpu:
            self.report_for_departed(cpu, event)
        else:
            self.compare("reports", event, False,
                         f"grace period {number}: Linux takes a report of CPU {cpu}, made on CPU "
                         f"{event.cpu}, but in the trace that CPU passed no quiescent state since "
                         "it noted the grace period (no cpuqs, no idle time)")

    def may_be_momentary(self, cpu, scanned):
        """Whether a scan may have found a quiescent state that leaves no event."""
        return scanned and (self.scans > ASKING_SCAN
                            or self.task.get(cpu, "").startswith(CALL_MOMENTARY_EQS))

    def report_for_departed(self, cpu, event):
        self.seen["reports on behalf of a CPU that went offline (rcu_gp_init)"] += 1
        self.depart(cpu, event)

    def hear(self, cpu, event, how, line):
        """A report that the engine takes, too."""
        number = self.linux(self.number)
        self.waits.discard(cpu)
        if how != NO_READERS:
            self.period.heard.append((cpu, event, how))
        self.seen["reports: " + re.sub(r"CPU \d+", "another CPU", how)] += 1

        def wrong(reply):
            if reply in ("taken", "last"):
                return None
            head = f"grace period {number}: Linux takes a report of CPU {cpu}"
            return {"repeat": f"{head}, for which the engine does not wait: it reported before, or "
                              "was not in the set at the start",
                    "stale": f"{head} that belongs to an earlier grace period",
                    }.get(reply, f"{head} ({how}); the engine says '{reply}'")
        self.say(line, "reports", event, wrong)

    def report_to_inner(self, event, node, mask, left):
        level, first, last = node
        number, below = int(event.words[1]), self.period.below(level, first, last)
        where = "the root" if level == 0 else f"node {first}-{last} of level {level}"
        for bit, (low, high) in enumerate(below):
            if not left >> bit & 1:
                self.hear_departed(low, high, event)

        def wrong(reply):
            here = members(reply)
            for bit, (low, high) in enumerate(below):
                waits = self.awaited_below(here, low, high)
                if waits and mask >> bit & 1:
                    return (f"grace period {number}: in Linux {where} hears that CPUs {low}-{high} "
                            f"are done, while the engine waits there for {waits}")
                if waits and not left >> bit & 1:
                    return (f"grace period {number}: {where} of Linux waits no more for CPUs "
                            f"{low}-{high} (qsmask {left:#x}), the engine does")
            return None
        self.say("awaits", "reports to inner nodes", event, wrong)

    def awaited_below(self, found, low, high):
        """Who of these is awaited in a part of the tree, in words; '' if nobody is."""
        here = {it for it in found if low <= it <= high and it < self.tree.cpus}
        tasks = [f"task {it}" for leaf, cpu in self.tree.readers.items()
                 if low <= leaf[0] <= high and cpu in found for it in sorted(self.blockers[leaf])]
        return ", ".join([cpus(here)] * bool(here) + tasks)

    # ---- preemptible RCU: readers that were preempted, on the leaf of the CPU that they ran on

    def may_block(self, leaf):
        """Whether a leaf of a preemptible kernel may have readers that are preempted."""
        return leaf in self.blocked and bool(self.blocked[leaf] or leaf in self.older)

    def rcu_preempt_task(self, event):
        if not self.blocked:
            return
        leaf = self.tree.leaf_of(event.cpu)
        number, task = int(event.words[1]), int(event.words[2])
        self.blocked[leaf][task] = event
        self.seen["readers preempted"] += 1
        if self.period and number == self.linux(self.number):
            self.blockers[leaf].add(task)

    def rcu_unlock_preempted_task(self, event):
        if event.words[0].endswith("-GPS"):
            return  # no unlock: rcu_preempt_check_blocked_tasks says that the task blocks the start
        for leaf in self.blocked:
            self.blocked[leaf].pop(int(event.words[2]), None)
            self.blockers[leaf].discard(int(event.words[2]))

    def end_readers(self, leaf, event, how):
        """The processor that stands for the leaf's readers reports."""
        cpu = self.tree.readers[leaf]
        self.hear(cpu, event, how, f"deliver {self.make_report(cpu)}")
