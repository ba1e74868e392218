#!/usr/bin/env python3
"""Compares a trace of Linux's RCU with the proved engine.

Use: rcu trace [--script FILE] [--svg FILE] [--only A..B] [--most N] [--totals] TRACE..

TRACE is a file that /sys/kernel/tracing/trace, trace_pipe or 'trace-cmd report' wrote, packed by
gzip or not, or '-' for standard input; of several each is compared by itself. It has the events
rcu:* and cpuhp:*, of a kernel with CONFIG_RCU_TRACE. Each event becomes lines of a script, and the
replies of the proved engine are compared with what the event says.

It prints a line for each grace period: who was awaited, how long it took, and which CPU was heard
of last, and by what. Then it prints totals. At a difference it says in Linux's words what the
kernel did and the engine would not, and goes on with the next grace period.

  --script FILE  writes the script, for './rcu script'; FILE.2 and so on if a comparison begins anew
  --svg FILE     draws the grace periods, as many as 200
  --only A..B    lists and draws the grace periods from number A to number B alone
  --most N       ends after N differences (5)
  --totals       prints no line for each grace period

The status is 0 if the kernel and the engine agree, 1 if they differ, 2 if the trace cannot be
compared, 3 if the program rcu is missing or ends.
"""
import argparse
import collections
import os
import sys

HERE = os.path.dirname(os.path.realpath(__file__))
sys.dont_write_bytecode = True
sys.path.insert(0, HERE)
from comparison import Difference, Unusable, cpus
from doubts import Waiting, tie_before
from engine import Engine, Stopped
from events import Flavour, Order, read, windows
from periods import Ahead, Standing, Tree
from picture import picture
from replay import Replay, is_boot

MOST_DRAWN = 200
MOST_PROCESSORS = 4096  # of the engine
MOST_LOSSES = 5  # that are told one by one


class Trace:
    """The comparison of a whole trace: it replays stretch after stretch, and prints."""

    def __init__(self, options, path):
        self.options, self.path = options, path
        self.order, self.flavour, self.waiting = Order(), Flavour(), Waiting()
        self.ahead, self.standing = Ahead(), Standing()
        self.tree, self.replay, self.engine, self.first = None, None, None, True
        self.present = set()  # the CPUs that were awaited so far
        self.agreed, self.seen = collections.Counter(), collections.Counter()
        self.drawn, self.scripts = [], []
        self.events, self.periods, self.lines, self.skipped = 0, 0, 0, 0
        self.differences, self.losses = 0, 0

    def compare(self):
        """Compares all of it. Returns whether the kernel and the engine agree."""
        for window in windows(self.flavour.only(read(self.path))):
            lost = window.pop() if window[-1].name == "lost" else None
            self.events += len(window)
            window = self.order.mended(window)
            self.ahead.look(window)
            self.find_tree()
            self.waiting.see(window)
            self.compare_window(window)
            if lost:
                self.lose(lost)
            self.list_periods()
            self.tell(self.waiting.certain(False))
            if self.differences >= self.options.most:
                break
        self.ahead.cut()
        self.list_periods()
        self.tell(self.waiting.certain(True))
        self.close()
        if not self.tree:
            raise Unusable("the trace has no rcu_grace_period 'start' with rcu_grace_period_init, "
                           "so nobody knows who is awaited: record the events rcu:* on a kernel "
                           "with CONFIG_RCU_TRACE")
        return not self.differences

    def lose(self, lost):
        """Events of a CPU are missing: what is known of the state is not known any more."""
        gone = self.waiting.lose(lost.cpu)
        self.losses += 1
        if self.losses <= MOST_LOSSES:
            left_out = f" ({gone} differences before it may come of that, and are left out)"
            print(f"line {lost.line}: {lost.text}: events are missing; the comparison goes on with "
                  f"the next start of a grace period{left_out if gone else ''}")
        self.ahead.cut()
        self.close()
        self.standing, self.first = Standing(), False
        self.ahead.forget()

    def find_tree(self):
        period = next((it for it in self.ahead.period_at.values() if it.inits), None)
        for it in self.ahead.period_at.values():
            self.present |= it.awaited()
        if self.tree is None and period:
            if period.number % 4 != 1:
                raise Unusable(f"grace period {period.number} starts, whose number is none of "
                               "gp_seq: the kernel is older than 4.19")
            self.tree = Tree(period, period.start.words[0] == "rcu_preempt")
            if self.tree.processors() > MOST_PROCESSORS:
                raise Unusable(f"the tree has {self.tree.cpus} CPUs: the engine takes "
                               f"{MOST_PROCESSORS}, and of a preemptible kernel one for each leaf")

    # ---- one window: all events up to the end of a grace period

    def compare_window(self, window):
        place = 0
        while place < len(window) and self.differences + len(self.waiting) < self.options.most:
            if self.replay and self.replay.is_long():
                self.close()
            if not self.replay:
                begin = self.begin(window, place)
                self.stand(window[place:begin])
                if begin == len(window):
                    return
                place = begin
            end = self.go_on(window, place)
            self.stand(window[place:end])
            place = end

    def begin(self, window, place):
        """Begins a replay at the next start of a grace period. Returns the place of its event, or
        that behind the window."""
        for at in range(place, len(window)):
            period = self.ahead.period_at.get(at)
            if period and period.inits and self.tree:
                boots = self.first and is_boot(period)
                at = place if boots else at
                self.skipped += at - place
                if self.first and self.skipped:
                    print(f"line {period.start.line}: the trace begins in the midst of a run: it "
                          f"is compared from grace period {period.number} on")
                self.stand(window[place:at])
                self.replay = Replay(self.tree, period, None if boots else self.standing)
                self.engine = Engine(self.options.rcu, self.tree, self.script())
                self.first = False
                return at
        self.skipped += len(window) - place
        return len(window)

    def script(self):
        """The file for the lines of the replay that begins: each but the first has a number."""
        if not self.options.script:
            return None
        number = len(self.scripts) + 1
        self.scripts.append(self.options.script + (f".{number}" if number > 1 else ""))
        return self.scripts[-1]

    def go_on(self, window, place):
        """Compares the window from this place on. Returns the place behind what was compared."""
        for at in range(place, len(window)):
            self.replay.take_event(at, window[at], self.ahead)
        checks = self.replay.take_checks()
        replies = self.engine.replies([it.line for it in checks if it.line])
        try:
            for check in checks:
                self.replay.settle(check, next(replies) if check.line else "")
            for _ in replies:  # (waits for the writer)
                pass
        except Difference as difference:
            then = max(place + 1, next((at for at, it in enumerate(window)
                                        if it.line > difference.event.line), len(window)))
            self.doubt(difference, window, then)
            self.close()
            return then
        return len(window)

    def stand(self, events):
        for it in events:
            self.standing.take(it)

    def doubt(self, difference, window, then):
        """Keeps a difference until it is certain, unless it is none for sure."""
        tie = tie_before(window, difference)
        if tie:
            self.seen["differences that are not told, as events of two CPUs have one time"] += 1
            print("line {0.line}: not compared up to the next grace period: the events of lines "
                  "{1.line} and {2.line}, of CPU {1.cpu} and {2.cpu}, have one time ({1.time}), "
                  "and may stand in a wrong order (trace_clock=counter has no such ties)"
                  .format(difference.event, *tie))
        else:
            self.waiting.add(difference, self.present, window[then:])

    def tell(self, differences):
        for difference in differences:
            event = difference.event
            self.differences += 1
            print(f"line {event.line}, {event.time}, CPU {event.cpu}, {event.task}: {event.name} "
                  f"{event.text}\n    {difference.words}")

    def close(self):
        """Ends the replay. What it counted stays."""
        if self.replay:
            self.agreed.update(self.replay.agreed)
            self.seen.update(self.replay.seen)
            self.lines += self.engine.lines
            self.engine.close()
            self.replay = None

    # ---- what is printed

    def list_periods(self):
        low, high = self.options.only
        for period in self.ahead.take_over():
            self.periods += 1
            if not low <= period.number <= high:
                continue
            if self.options.svg and len(self.drawn) < MOST_DRAWN:
                self.drawn.append(period)
            if not self.options.totals:
                print(line_of(period, self.tree))
        sys.stdout.flush()

    def totals(self):
        print(f"{self.events} events, {self.periods} grace periods, {self.tree.cpus} CPUs, "
              f"{self.lines} lines of script")
        for kind, count in sorted(self.agreed.items()):
            print(f"{count:9} {kind}: agree")
        for kind, count in sorted(self.seen.items()):
            print(f"{count:9} {kind}")
        for count, words in self.asides():
            if count:
                print(f"{count:9} {words}")
        for path in self.scripts:
            print(f"script: rcu script {' '.join(self.tree.words())} < {path}")
        print(f"{self.differences} differences")

    def asides(self):
        """What the totals say of the trace itself: how often, and what."""
        yield self.skipped, "events that are not compared: before the first start of a grace " \
            "period, or from a loss or a difference to the next one"
        yield self.losses, "places where events are missing"
        for flavour, count in self.flavour.others.items():
            yield count, f"events of the flavour {flavour}, which are not compared: those of " \
                f"{self.flavour.name} are"
        yield self.order.moved, "reports in a wrong order within one time (trace_clock=counter " \
            "has no such ties)"


def line_of(period, tree):
    """A grace period in a line."""
    head = f"grace period {period.number}: awaited {cpus(period.awaited())}"
    if period.is_stalled:
        head += "; Linux warned of a stall"
    if not period.end:
        return f"{head}; its end is not in the trace"
    took = float(period.end.time) - float(period.start.time)
    took = f"{took * 1000:.3f} ms" if "." in period.start.time else f"{took:.0f} events"
    if not period.heard:
        return f"{head}; took {took}"
    cpu, event, how = period.heard[-1]
    who = f"CPU {cpu}" if cpu < tree.cpus else f"task {event.task}"
    return f"{head}; took {took}; last was {who} ({how})"


def range_of(words):
    low, dots, high = words.partition("..")
    if not dots:
        raise argparse.ArgumentTypeError("a range is A..B")
    return int(low or -10**9), int(high or 10**9)


def options_of(words):
    parser = argparse.ArgumentParser(prog="rcu trace", usage=__doc__.splitlines()[2][5:],
                                     description=__doc__, add_help=False,
                                     formatter_class=argparse.RawDescriptionHelpFormatter)
    parser.add_argument("trace", nargs="+")
    parser.add_argument("--rcu", action="append", help=argparse.SUPPRESS)
    parser.add_argument("--script")
    parser.add_argument("--svg")
    parser.add_argument("--only", type=range_of, default=(-10**9, 10**9))
    parser.add_argument("--most", type=int, default=5)
    parser.add_argument("--totals", action="store_true")
    joined = [f"{it}={words[at + 1]}" if it == "--only" and at + 1 < len(words) else it
              for at, it in enumerate(words) if at == 0 or words[at - 1] != "--only"]
    options = parser.parse_args(joined)
    options.rcu = options.rcu or [os.environ.get("RCU", "rcu")]
    if len(options.trace) > 1 and (options.script or options.svg):
        parser.error("--script and --svg take one TRACE")
    return options


def compare_one(options, path):
    """Compares one trace, and prints. Returns whether the kernel and the engine agree."""
    trace = Trace(options, path)
    agree = trace.compare()
    trace.totals()
    if options.svg:
        with open(options.svg, "w", encoding="utf-8") as file:
            file.write(picture(trace.drawn, trace.tree.cpus))
    return agree


def main(words):
    if not words or words[0] in ("-h", "--help"):
        print(__doc__, end="", file=sys.stdout if words else sys.stderr)
        return 0 if words else 2
    options, agree = options_of(words), True
    try:
        for path in options.trace:
            if len(options.trace) > 1:
                print(f"{path}:")
            agree = compare_one(options, path) and agree
    except BrokenPipeError:
        raise
    except (OSError, EOFError) as error:
        print(f"rcu trace: {error}", file=sys.stderr)
        return 3 if isinstance(error, FileNotFoundError) and error.filename in options.rcu else 2
    except Unusable as error:
        print(f"rcu trace: {error}", file=sys.stderr)
        return 2
    except Stopped as error:
        print(f"rcu trace: {error}", file=sys.stderr)
        return 3
    return 0 if agree else 1


if __name__ == "__main__":
    try:
        sys.exit(main(sys.argv[1:]))
    except BrokenPipeError:
        os.dup2(os.open(os.devnull, os.O_WRONLY), sys.stdout.fileno())
        sys.exit(1)
