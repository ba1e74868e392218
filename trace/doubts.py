"""Differences that may be none: events were lost, or have one time and stand in a wrong order."""
import collections
import itertools
import re

# The events on which a difference may depend.
RELEVANT = {"rcu_grace_period", "rcu_grace_period_init", "rcu_quiescent_state_report", "rcu_fqs",
            "rcu_watching", "rcu_dyntick", "rcu_preempt_task", "rcu_unlock_preempted_task",
            "rcu_sr_normal", "rcu_batch_start", "rcu_invoke_callback", "cpuhp_enter", "cpuhp_exit"}
CPUS = re.compile(r"\bCPUs? (\d+(?:, \d+)*)")


def tie_before(window, difference):
    """Two events of one time and of two CPUs, up to the difference in the window, one of them of a
    CPU that the difference is about; or None."""
    event = difference.event
    about = {event.cpu} | {int(it) for found in CPUS.findall(difference.words)
                           for it in found.split(", ")}
    events = itertools.takewhile(lambda it: it.line <= event.line or it.time == event.time, window)
    for _, group in itertools.groupby(events, lambda it: it.time):
        group = [it for it in group if it.name in RELEVANT]
        first = next((it for it in group if it.cpu in about), None)
        other = next((it for it in group if first and it.cpu != first.cpu), None)
        if other:
            return first, other
    return None


class Waiting:
    """Differences that are not told yet. Linux says that events of a CPU were lost just before the
    CPU's next event: so a difference counts once each CPU that was awaited ever had an event."""

    def __init__(self):
        self.differences = collections.deque()  # each with the CPUs that had no event since

    def __len__(self):
        return len(self.differences)

    def add(self, difference, cpus, later):
        """A difference, the CPUs that may lose events, and the events that are known after it."""
        self.differences.append((difference, set(cpus) - {it.cpu for it in later}))

    def see(self, events):
        for _, silent in self.differences:
            silent.difference_update(it.cpu for it in events)

    def lose(self, cpu):
        """Events of the CPU were lost since its last one. Returns how many differences go."""
        kept = [it for it in self.differences if cpu not in it[1]]
        gone = len(self.differences) - len(kept)
        self.differences = collections.deque(kept)
        return gone

    def certain(self, is_over):
        """The differences, in order, that are certain now; at the end of a trace all are."""
        while self.differences and (is_over or not self.differences[0][1]):
            yield self.differences.popleft()[0]
