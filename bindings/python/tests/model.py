"""A model of a replica, for the simulation, and its comparison with `rcu pair`.

A set of processors is an int, whose bit C stands for processor C.
"""
import random
import subprocess

OFFERED = ((2, 2), (2, 3), (4, 4), (16, 64), (64, 64))
FAULTS = {"BadCpu": 1, "Running": 8, "Idle": 9, "Waiting": 10, "Exhausted": 11, "BootStays": 12,
          "NotAlike": 20}


class Refusal(Exception):
    """A call that was refused, by the name of its fault. It changed nothing."""


def refuse(name, cause):
    if cause:
        raise Refusal(name)


def bits(cpus):
    return sum(1 << cpu for cpu in set(cpus))


def members(mask):
    """The processors of a set, ascending."""
    while mask:
        low = mask & -mask
        yield low.bit_length() - 1
        mask ^= low


class Replica:
    """What SCRIPTS.md says of the lines of a pair, in a few words a call."""

    def __init__(self, cpus, last=1 << 62):
        self.cpus, self.last = cpus, last
        self.value = self.tag = self.start = self.awaited = 0

    def begin(self, cpus):
        refuse("BadCpu", cpus >> self.cpus)
        refuse("Running", self.value & 3)
        refuse("Exhausted", self.value == self.last)
        self.value += 1
        self.tag, self.start, self.awaited = self.value, cpus, cpus
        return self.value

    def report(self, cpu, tag):
        refuse("BadCpu", cpu >= self.cpus)
        if not self.value & 3 or tag != self.tag:
            return "stale"
        if not self.awaited >> cpu & 1:
            return "repeat"
        self.awaited ^= 1 << cpu
        return "taken" if self.awaited else "last"

    def depart(self, cpu):
        refuse("BadCpu", cpu >= self.cpus)
        refuse("BootStays", cpu == 0)
        self.awaited &= ~(1 << cpu)

    def end(self):
        refuse("Idle", not self.value & 3)
        refuse("Waiting", self.awaited)
        self.value += 3
        return self.value

    def merge(self, other):
        alike = (self.cpus, self.tag, self.start) == (other.cpus, other.tag, other.start)
        refuse("NotAlike", not alike)
        self.awaited &= other.awaited


def reply(pair, line):
    """What `rcu pair` answers the line, where it is within the grammar."""
    side, *words = line.split()
    if side == "same":
        return "same" if pair["a"].awaited == pair["b"].awaited else "differ"
    replica, (name, *numbers) = pair[side], words
    numbers = list(map(int, numbers))
    try:
        if name == "begin":
            return f"begun {replica.begin(bits(numbers))} awaits {replica.awaited.bit_count()}"
        if name == "report":
            return replica.report(*numbers)
        if name == "depart":
            replica.depart(*numbers)
            return "departed"
        if name == "end":
            return f"ended {replica.end()}"
        if name == "merge":
            replica.merge(pair["b" if side == "a" else "a"])
            return f"merged {replica.awaited.bit_count()}"
    except Refusal as fault:
        return f"fault {FAULTS[str(fault)]}"
    return " ".join(["awaits", *map(str, members(replica.awaited))]) if replica.awaited else (
        "awaits none")


def drawn_line(draw, pair, cpus):
    """A line that often, but not always, is accepted."""
    # (mostly the one that is behind)
    side = min("ab", key=lambda it: pair[it].value) if draw(4) else "ab"[draw(2)]
    replica = pair[side]
    kind = draw(12)
    if kind < 2:
        # (mostly the same set at the same number, so that many are alike)
        choice = random.Random(replica.value if draw(8) else draw(1000))
        named = [int(choice.random() * cpus) for _ in range(1 + int(choice.random() * 6))]
        return f"{side} begin {' '.join(map(str, named if draw(20) else [cpus]))}"
    if kind < 7:
        awaited = list(members(replica.awaited))
        cpu = awaited[draw(len(awaited))] if awaited and draw(3) else draw(cpus + draw(2))
        return f"{side} report {cpu} {replica.tag if draw(4) else 4 * draw(8) + 1}"
    if kind == 7:
        return f"{side} depart {draw(cpus + 1)}"
    return (f"{side} end", f"{side} awaits", f"{side} merge", "same")[kind - 8]


def unlike_rows(program, words, lines, wanted):
    """Yields the first line that the program answers otherwise than it should."""
    ran = subprocess.run([program, *map(str, words)], input="".join(f"{it}\n" for it in lines),
                         capture_output=True, text=True, check=False, timeout=600)
    replies = ran.stdout.splitlines()
    if len(replies) != len(lines):
        yield f"{len(replies)} replies to {len(lines)} lines: {ran.stderr[:400]}"
    for number, rows in enumerate(zip(lines, replies, wanted), 1):
        if rows[1] != rows[2]:
            yield "line {}: '{}' is answered '{}', by the model '{}'".format(number, *rows)
            return


def unlike_replies(program, seed, lines):
    """Draws a script of pairs for each two offered trees next to one another, and yields where the
    program and the model differ."""
    source = random.Random(seed)

    def draw(below):
        return int(source.random() * below)

    for at, first in enumerate(OFFERED):
        second, cpus, last = OFFERED[at - 1], (1, 5, 12, 16)[at % 4], (60, 400, 1 << 62)[at % 3]
        pair = {side: Replica(cpus, last) for side in "ab"}
        script, wanted = [], []
        for _ in range(lines):
            script.append(drawn_line(draw, pair, cpus))
            wanted.append(reply(pair, script[-1]))
        words = ["pair", "--leaf", first[0], "--inner", first[1], "--leaf2", second[0],
                 "--inner2", second[1], "--cpus", cpus, "--last", last]
        yield from unlike_rows(program, words, script, wanted)


class Recorded:
    """A replica whose calls are kept as lines of a pair, with the model's replies: a is the
    replica, b the other ones that it merges."""

    def __init__(self, cpus):
        self.cpus, self.pair = cpus, {side: Replica(cpus) for side in "ab"}
        self.lines, self.wanted = [], []

    value = property(lambda self: self.pair["a"].value)
    tag = property(lambda self: self.pair["a"].tag)
    start = property(lambda self: self.pair["a"].start)
    awaited = property(lambda self: self.pair["a"].awaited)

    def tell(self, *lines):
        for line in lines:
            self.lines.append(line)
            self.wanted.append(reply(self.pair, line))
        return self.wanted[-1]

    def begin(self, cpus):
        self.tell(*(f"{side} begin {' '.join(map(str, members(cpus)))}" for side in "ab"))
        return self.tag

    def report(self, cpu, tag):
        return self.tell(f"a report {cpu} {tag}")

    def depart(self, cpu):
        self.tell(f"a depart {cpu}")

    def end(self):
        self.tell("b merge", "same", "a end", "b end")

    def merge(self, other):
        refuse("NotAlike", (self.tag, self.start) != (other.tag, other.start))
        heard = members(self.start & ~other.awaited)
        self.tell(*(f"b report {cpu} {self.tag}" for cpu in heard), "a merge")

    def unlike(self, program):
        """Yields where the program answers otherwise than the model did."""
        words = "pair --leaf 2 --inner 3 --leaf2 4 --inner2 4 --cpus".split()
        yield from unlike_rows(program, [*words, self.cpus], self.lines, self.wanted)
