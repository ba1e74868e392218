"""A comparison: the lines of a script that an event of Linux becomes, and what each reply has to
be. The replies are those of `rcu script`, whose engine is proved; what is here is not."""
import collections


def cpus(members):
    return "nobody" if not members else "CPU " + ", ".join(str(it) for it in sorted(members))


def members(reply):
    """The processors of a reply to `awaits`."""
    words = reply.split()[1:]
    return set() if words == ["none"] else {int(it) for it in words}


def awaited_as_said(reply):
    return cpus(members(reply)) if reply.startswith("awaits") else f"('{reply}')"


def apart(linux, engine):
    """How two sets differ, in words."""
    parts = [f"Linux alone waits for {cpus(linux - engine)}"] if linux - engine else []
    parts += [f"the engine alone waits for {cpus(engine - linux)}"] if engine - linux else []
    return "; ".join(parts)


def snapshot(number):
    return number // 4 * 4 + (8 if number % 4 else 4)


class Unusable(Exception):
    """The trace cannot be compared, and why."""


class Difference(Exception):
    """The kernel and the engine disagree: at which event, and how, in Linux's words."""

    def __init__(self, event, words):
        super().__init__(words)
        self.event, self.words = event, words


# A line of the script ('' for a comparison that needs none); what it compares, if anything; the
# event; and a function of the reply, which returns what is wrong, or None.
Check = collections.namedtuple("Check", "line kind event wrong")


class Comparison:
    """What all parts of a replay share: they say lines, with what each reply has to be."""

    def __init__(self, tree):
        self.tree, self.checks = tree, []
        self.agreed, self.seen = collections.Counter(), collections.Counter()
        self.base = 0  # what Linux's numbers are ahead of the engine's
        self.online, self.idle = {0}, set()
        self.reports = 0  # how many the engine was asked to make
        self.period, self.number = None, 0
        self.waits = set()  # who is awaited, by the trace

    def say(self, line, kind=None, event=None, wrong=None):
        self.checks.append(Check(line, kind, event, wrong))

    def want(self, line, kind, event, reply, why):
        """A line whose reply has to be this one."""
        self.say(line, kind, event,
                 lambda it: None if it == reply else f"{why}; the engine says '{it}'")

    def compare(self, kind, event, is_right, words):
        """A comparison that needs no line: it is made with the trace alone."""
        self.say("", kind, event, lambda _: None if is_right else words)

    def linux(self, number):
        """A number of the engine's, as Linux has it."""
        return number + self.base

    def make_report(self, cpu):
        """The processor notes the grace period and passes a quiescent state. Returns the report."""
        self.say(f"note {cpu}")
        return self.quiesce_at_once(cpu)

    def quiesce_at_once(self, cpu):
        self.reports += 1
        self.say(f"quiet {cpu}")
        return self.reports

    def take_checks(self):
        checks, self.checks = self.checks, []
        return checks

    def settle(self, check, reply):
        """Holds a reply against what it has to be."""
        words = check.wrong(reply) if check.wrong else None
        if words:
            raise Difference(check.event, words)
        if check.kind:
            self.agreed[check.kind] += 1
        elif reply.startswith("fault"):
            self.seen[f"lines that were refused: {check.line.split()[0]}, {reply}"] += 1
