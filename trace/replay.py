"""A replay of a trace's stretch on the engine, from the start of a grace period on."""
from callbacks import Callbacks
from comparison import Comparison, Unusable
from grace_periods import GracePeriods
from hotplug import Hotplug
from quiescence import QuiescentStates

FIRST = -300 * 4  # rcu_state.gp_seq as a kernel boots
# A script takes 1,000,000 callbacks, and its program keeps each report: some before that a replay
# begins anew.
MOST_CALLBACKS = 900_000
# A CPU that is being taken down is gone after as many grace periods.
SETTLED = 2


def is_boot(period):
    """Whether a trace begins as its kernel boots: then its first events count, too."""
    return FIRST < period.number < FIRST + 100 and period.awaited() <= {0}


class Replay(GracePeriods, Hotplug, QuiescentStates, Callbacks, Comparison):
    """Takes the events of a stretch, in order, and says the lines that they become."""

    def __init__(self, tree, period, standing):
        Comparison.__init__(self, tree)
        for part in (GracePeriods, Hotplug, QuiescentStates, Callbacks):
            part.__init__(self)
        self.event, self.place, self.ahead = None, 0, None
        self.is_boot = standing is None
        self.base = FIRST if self.is_boot else period.number - 1
        online = {0} if self.is_boot else period.awaited()
        if 0 not in online:
            raise Unusable(f"line {period.start.line}: CPU 0 is offline, as the engine's never is")
        for cpu in sorted(online - {0}) + sorted(tree.readers.values()):
            self.say(f"online {cpu}")
        self.online = online
        if standing:
            self.stand_as(standing)

    def stand_as(self, standing):
        """Takes over the state in which the stretch begins, and what of it is not known: each CPU
        may be dying, and one that is not awaited may be arriving."""
        for cpu in sorted(self.online):
            if cpu not in standing.watched:
                self.unknown.add(cpu)
            elif standing.watched[cpu]:
                self.idle.add(cpu)
                self.say(f"idle {cpu}")
        self.may_arrive = set(range(self.tree.cpus)) - self.online
        is_settled = standing.periods > SETTLED
        self.dying = (self.online & standing.dying if is_settled else self.online) - {0}
        self.may_die = self.dying - standing.dying
        self.older = set(self.tree.readers)
        for event in standing.blocked.values() if self.tree.readers else ():
            self.rcu_preempt_task(event)

    def take_event(self, place, event, ahead):
        self.place, self.event, self.ahead = place, event, ahead
        cpu = event.cpu
        if cpu in self.arriving or cpu in self.may_arrive:
            self.arrive(cpu)
        self.task[cpu] = event.task
        take = getattr(self, event.name, None) if event.name.startswith(("rcu", "cpuhp")) else None
        if take:
            take(event)
        else:
            self.seen[f"not used: {event.name}"] += 1

    def rcu_exp_grace_period(self, event):
        if event.words[2] in ("start", "end"):
            self.expedites = event.words[2] == "start"
            self.expedited |= self.expedites
        if event.words[2] == "start":
            self.seen["expedited grace periods, which are not compared"] += 1

    def rcu_stall_warning(self, _):
        self.seen["stall warnings of Linux"] += 1

    def is_long(self):
        return max(self.ids, self.reports) > MOST_CALLBACKS
