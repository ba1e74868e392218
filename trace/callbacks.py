"""Callbacks: what they wait for, when they are invoked, and the barrier."""
import collections
import re

from comparison import snapshot

# The kthreads of CPUs whose callbacks are offloaded (rcu_nocbs): one for each CPU invokes them, and
# one for each group of CPUs accelerates them.
INVOKES, ACCELERATES = re.compile(r"rcuo[ps]/(\d+)-"), re.compile(r"rcuog/")
# In place of each address, as long as Linux has no random bits to hash it with (hash-ptr).
HIDDEN = "(____ptrval____)"


def list_of(event):
    """The CPU whose callbacks an event is about. (A softirq may interrupt such a kthread.)"""
    found = INVOKES.match(event.task) if event.context != "s" else None
    return int(found[1]) if found else event.cpu


class Callbacks:
    """A part of a replay, by the events rcu_callback, rcu_batch_start, rcu_invoke_callback,
    rcu_barrier and rcu_sr_normal."""

    def __init__(self):
        self.ids = 0
        self.queued = {}  # of a callback's address: its id (0: in no list), its cookie, the event
        self.left = set()  # ids that Linux has invoked, of a list that the engine moved
        self.queued_on = {}  # of each id in a list: the CPU that queued it
        # Of each such CPU: the ids, in order, that the engine handed out and Linux did not invoke.
        self.handed = collections.defaultdict(dict)
        # Of a CPU that went offline: the last id that was queued before. The engine moved its list
        # to CPU 0; Linux moves it to another CPU, or leaves it if the callbacks are offloaded.
        self.moved = {}
        self.taken_at = None  # the number at which a cookie was taken last
        self.in_barrier = False
        self.early_visits = []  # that come before the barrier in the trace, at the same time

    def take(self, event):
        """The cookie of a snapshot that Linux takes now."""
        cookie = snapshot(self.number)
        if self.taken_at != self.number:
            self.taken_at = self.number
            self.want("take", "cookies", event, f"cookie {cookie}",
                      f"a snapshot of the number {self.linux(self.number)}")
        return cookie

    def accelerate(self, event, needs):
        cookie, wanted = self.take(event), needs - self.base
        is_of_group = ACCELERATES.match(event.task) and event.context != "s"
        first_known = len(self.begun) == len(self.tree.leaves) if is_of_group else \
            any(low <= event.cpu <= high for low, high in self.begun)
        if wanted != cookie and wanted == self.before and not first_known:
            self.seen["AccWaitCB, AccReadyCB: number read just before a start"] += 1
            cookie = self.before
        self.compare("needed numbers (AccWaitCB, AccReadyCB)", event, wanted == cookie,
                     f"Linux lets callbacks of CPU {event.cpu} wait for {needs}, the engine for "
                     f"{self.linux(cookie)}")

    def is_hidden(self, event):
        """Whether the trace has no address, by which a callback is found again."""
        hidden = HIDDEN in event.words[1]
        if hidden:
            self.seen[f"not compared: {event.name} without an address (the kernel's word "
                      "no_hash_pointers gives it)"] += 1
        return hidden

    def rcu_callback(self, event):
        cpu, address = event.cpu, event.words[1]
        if self.is_hidden(event):
            return
        if cpu not in self.online:
            self.queued[address] = 0, self.take(event), event
            self.seen["callbacks queued, and not given to a list"] += 1
            return
        self.ids += 1
        self.queued[address] = self.ids, self.take(event), event
        self.queued_on[self.ids] = cpu
        self.want(f"queue {cpu} {self.ids}", "callbacks queued", event, f"queued {self.ids}",
                  "a callback is queued")
        self.say(f"tend {cpu}")

    # ---- a batch, in which a CPU invokes callbacks

    def hand_out(self, event):
        """The engine hands out what is done of the CPU's list."""
        self.hand_out_list(list_of(event), "batches", event)

    def hand_out_list(self, cpu, kind, event):
        def take_ids(reply):
            ids = [int(it) for it in reply.split()[1:] if it != "none"]
            for it in ids:
                cpu = self.queued_on.pop(it)
                if it not in self.left:
                    self.handed[cpu][it] = True
            self.left.difference_update(ids)
        self.say(f"tend {cpu}")
        self.say(f"run {cpu} 1000000", kind, event, take_ids)

    def is_early_leaf(self):
        """Between the end in a leaf and that in the root, a leaf's gp_seq is ahead."""
        return bool(self.period and (self.period.rooted or self.may_be_over()))

    def rcu_batch_start(self, event):
        if self.is_early_leaf():
            self.late.append(lambda: self.hand_out(event))
        else:
            self.hand_out(event)

    def rcu_invoke_callback(self, event):
        if "rcu_barrier_callback" in event.text or self.is_hidden(event):
            return
        queued = self.queued.pop(event.words[1], None)
        if not queued:
            self.seen["callbacks invoked that were queued before the trace"] += 1
            return
        if self.is_early_leaf() and queued[1] > self.number:
            self.seen["callbacks invoked between the end in a leaf and that in the root"] += 1
            self.late.append(lambda: (self.hand_out(event), self.invoke(event, queued)))
        else:
            if self.is_early_leaf():
                self.hand_out(event)
            self.invoke(event, queued)

    def invoke(self, event, queued):
        """The callback's grace period is over, and the engine handed it out, of any list."""
        number, cookie, at = queued
        waits_for = self.linux(cookie) - 3
        words = (f"Linux invokes callback {event.words[1]} on CPU {event.cpu}, queued at line "
                 f"{at.line}")
        self.want(f"poll {cookie}", "callbacks invoked", event, "done",
                  f"{words}, before grace period {waits_for} has ended")
        is_moved = 0 < number <= self.moved.get(at.cpu, 0)
        if is_moved and INVOKES.match(event.task) and list_of(event) == at.cpu:
            self.say("", None, event, lambda _: self.leave(at.cpu, number))
        elif number:
            if is_moved and list_of(event) != 0:
                self.hand_out_list(0, None, event)
            if INVOKES.match(event.task) and not event.context:
                self.hand_out_list(event.cpu, None, event)  # (it may be a softirq there)
            self.say("", "callbacks handed out", event,
                     lambda _: None if number in self.handed[at.cpu] else
                     f"{words} on CPU {at.cpu}; in the engine's list it still waits, for grace "
                     f"period {waits_for} or a later one")
            self.say("", "orders of callbacks", event,
                     lambda _: self.misordered(at.cpu, number, words))

    def leave(self, cpu, number):
        """An offloaded callback of a CPU that went offline: Linux left it on its list, and the
        engine's list, to which it moved, may hold it for longer."""
        self.seen["offloaded callbacks invoked of a CPU that went offline"] += 1
        if not self.handed[cpu].pop(number, False):
            self.left.add(number)

    def misordered(self, cpu, number, words):
        """A CPU's callbacks are invoked in the order in which it queued them. Those that were moved
        away as it went offline are invoked apart from its later ones."""
        apart = self.moved.get(cpu, 0)
        first = next(it for it in self.handed[cpu] if it > apart or number <= apart)
        del self.handed[cpu][number]
        return f"{words}, before one that CPU {cpu} queued earlier" if first < number else None

    # ---- waiting for callbacks, and for readers

    def rcu_barrier(self, event):
        what, cpu = event.words[1], int(event.words[3])
        if what == "Inc1":
            self.in_barrier = True
            self.want("bar", "barriers begun", event, "barrier begun", "rcu_barrier begins")
            for readers in self.tree.readers.values():
                self.say(f"visit {readers}")
            for visit in self.early_visits:
                if visit.time == event.time:
                    self.rcu_barrier(visit)
            self.early_visits = []
        elif what in ("IRQ", "IRQNQ", "NQ", "OfflineNoCBQ") and self.in_barrier:
            self.say(f"visit {event.cpu if cpu < 0 else cpu}", "visits of a barrier", event,
                     lambda it: None if it in ("marked", "empty", "already") else
                     f"rcu_barrier looks at a CPU; the engine says '{it}'")
        elif what == "IRQ":
            self.early_visits = [event]
        elif what == "Inc2" and self.in_barrier:
            self.in_barrier = False
            self.want("bartest", "barriers done", event, "barrier done",
                      "rcu_barrier is done in Linux")

    def rcu_sr_normal(self, event):
        if self.is_hidden(event):
            return
        address, what = "sync " + event.words[1], event.words[-1]
        if what == "event=request":
            self.queued[address] = 0, self.take(event), event
        elif what == "event=complete" and address in self.queued:
            _, cookie, _ = self.queued.pop(address)
            self.want(f"poll {cookie}", "returns of synchronize_rcu", event, "done",
                      f"synchronize_rcu returns on CPU {event.cpu} before grace period "
                      f"{self.linux(cookie) - 3} has ended")
