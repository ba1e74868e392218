"""The events of a trace, as Linux writes them.

Read are /sys/kernel/tracing/trace, trace_pipe, and what 'trace-cmd report' prints, gzip too. It is
built on no code of ours: each line is Linux's text."""
import collections
import gzip
import re
import sys

LINE = re.compile(r"^\s*(.+?)-(\d+)\s+(?:\(\s*[\d-]+\)\s+)?\[(\d+)\]\s+(?:(\S+)\s+)?([\d.]+):\s+"
                  r"(\w+):\s*(.*)$")
# Before the next event of a CPU: events of it were lost, as Linux and trace-cmd say it, or those
# before were overwritten.
LOST = re.compile(r"CPU:(\d+) \[.*(?:LOST|DROPPED).*\]|#+ CPU (\d+) buffer started #+")
GZIP = b"\x1f\x8b"
# rcu_dyntick is rcu_watching of kernels before 6.12, with the words the other way round: it says
# that an idle time starts where rcu_watching says that RCU's watching ends.
OPPOSITE = {"Start": "End", "End": "Start", "Startirq": "Endirq", "Endirq": "Startirq"}
# Kernels before 4.20 have two or three flavours at a time, each with grace periods of its own.
FLAVOURS = {"rcu_sched", "rcu_preempt", "rcu_bh"}
# How many words these events have at least: a trace's last line may be cut off. (With the trace
# option nohash-ptr, Linux 6.1 writes no words of them, and the next event in the same line.)
WORDS = {"rcu_grace_period": 3, "rcu_grace_period_init": 6, "rcu_quiescent_state_report": 7,
         "rcu_future_grace_period": 7, "rcu_fqs": 4, "rcu_watching": 4, "rcu_dyntick": 4,
         "rcu_callback": 3, "rcu_invoke_callback": 3, "rcu_barrier": 4, "rcu_sr_normal": 3,
         "rcu_preempt_task": 3, "rcu_unlock_preempted_task": 3}
# A window grows no further than this, although a grace period runs. (Then the look ahead is cut.)
MOST = 50_000

# `context`: 's' in a softirq and 'H' in an interrupt of one, if the trace says it.
Event = collections.namedtuple("Event", "line task cpu time name text words context")


def opened(path):
    """The lines of a file, packed by gzip or not; '-' is standard input."""
    binary = sys.stdin.buffer if path == "-" else open(path, "rb")
    if binary.peek(2)[:2] == GZIP:
        binary = gzip.open(binary)
    for line in binary:
        yield line.decode("utf-8", "replace")


def parsed(number, line):
    """The event of a line, or None. One of the name 'lost' stands for events that are not there."""
    lost = LOST.match(line) if line[:1] in "C#" else None
    if lost:
        return Event(number, "", int(lost[1] or lost[2]), "", "lost", line.strip(), [], "")
    found = None if line.startswith("#") else LINE.match(line)
    if not found:
        return None
    task, pid, cpu, flags, time, name, text = found.groups()
    text = text.rstrip()
    words = text.split()
    if len(words) < WORDS.get(name, 0) or "] " in text:
        return None
    if name == "rcu_dyntick":
        words[0] = OPPOSITE.get(words[0], words[0])
    return Event(number, f"{task.strip()}-{pid}", int(cpu), time, name, text, words,
                 (flags or "")[2:3])


def read(path):
    """The events of a file."""
    for number, line in enumerate(opened(path), 1):
        event = parsed(number, line)
        if event:
            yield event


class Flavour:
    """Passes the events of one flavour, the first that comes, and counts those of others."""

    def __init__(self):
        self.name, self.others = None, collections.Counter()

    def only(self, events):
        for event in events:
            flavour = event.words[0] if event.words else ""
            if flavour in FLAVOURS:
                self.name = self.name or flavour
                if flavour != self.name:
                    self.others[flavour] += 1
                    continue
            yield event


def is_start(event):
    return event.name == "rcu_grace_period" and event.words[2] == "start"


def is_end(event):
    return event.name == "rcu_grace_period" and event.words[2] == "end"


def windows(events):
    """The events in lists, of which each but the last one ends with the end of a grace period, or
    with a loss: so all that a grace period needs to know of its later events stands in one list."""
    window, start = [], 0
    for event in events:
        window.append(event)
        if is_start(event):
            start = len(window)
        elif is_end(event) or event.name == "lost" or len(window) - start == MOST:
            yield window
            window, start = [], 0
    if window:
        yield window


def node_of(event):
    """The node of a report: its level, and its first and last processor."""
    return event.words[1], event.words[3], event.words[4]


def masks_of(event):
    """Of a report: the bits that were cleared, and those that are left."""
    return [int(it, 16) for it in event.words[2].split(">")]


class Order:
    """Puts events of one time into the order in which they happened.

    With trace_clock=global many events may have one time, and stand in a wrong order then. Reports
    to one node are put so that their masks follow on."""

    def __init__(self):
        self.masks, self.moved = {}, 0

    def mended(self, window):
        window, place = list(window), 0
        while place < len(window):
            event = window[place]
            if is_start(event):
                self.masks.clear()
            elif event.name == "rcu_grace_period_init":
                self.masks[event.words[1], event.words[2], event.words[3]] = int(event.words[5], 16)
            elif event.name == "rcu_quiescent_state_report":
                then = self.next_of_its_node(window, place)
                if then > place:
                    self.move(window, place, then)
                    continue
                self.masks[node_of(event)] = masks_of(event)[1]
            place += 1
        return window

    def next_of_its_node(self, window, place):
        """Where the report stands that follows on, among those of one time."""
        first = window[place]
        for then in range(place, len(window)):
            other = window[then]
            if other.time != first.time:
                break
            if other.name == first.name and node_of(other) == node_of(first):
                mask, left = masks_of(other)
                if self.masks.get(node_of(first), mask | left) == mask | left:
                    return then
        return place

    def move(self, window, place, then):
        """The report's processor goes first, with all that it did before."""
        self.moved += 1
        part, cpu = window[place:then + 1], window[then].cpu
        window[place:then + 1] = [it for it in part if it.cpu == cpu] \
            + [it for it in part if it.cpu != cpu]
