"""Which events end the running grace period from the end of a script on, and who holds it up.

The engine's own function for it is proved: rcu_core's Core::next_retiring_event names the events,
one after another, as many as are left and none of them refused
(rcu_core::progress::the_way_out_ends_a_grace_period). They are the list that is made here, by the
law the_way_out_goes_by_the_processors beside it. What the list is made from is read off the replies
of ./rcu to lines behind the script, which show what each processor lacks; then ./rcu answers the
list itself. Of one script tools/front_door and rcu_core_tests (events::way_out) have the same list.
"""
import re

NONE_RUNS = "fault 9"


class Processor:
    """What an awaited processor lacks, by the replies to lines behind a script."""

    def __init__(self, cpu, took, exits, idled):
        self.cpu = cpu
        self.report = next((place for place, reply in took if reply in ("taken", "last")), None)
        self.depth = sum(reply.startswith("depth") for reply in exits)
        self.is_idle = idled != "idle"

    def lacks(self):
        return ", ".join((
            f"in a section of depth {self.depth}" if self.depth else "in no section",
            "idle, not scanned" if self.is_idle else "not idle",
            f"report {self.report} not delivered" if self.report else "not reported"))

    def events(self):
        """An exit for each open enter, one to go idle if it is not, and a scan."""
        idle = [] if self.is_idle else [f"idle {self.cpu}"]
        return [f"exit {self.cpu}"] * self.depth + idle + [f"scan {self.cpu}"]


def way_out(answers, lines, replies):
    """Who holds the grace period up, and the lines that end it with their replies: none while none
    runs. `answers` gives the replies to lines; these are those of the script's own lines."""
    def behind(more):
        return answers(lines + [line.encode() for line in more])[len(replies):]

    # A processor has at most as many open enters as the script has lines that open one. What it
    # lacks is asked of each that there may be, in one run.
    made = [re.match(r"report (\d+) cpu (\d+) ", reply) for reply in replies]
    enters = [int(line.split()[1]) for line in lines if re.fullmatch(rb" *enter +\d+ *", line)]
    opened = {cpu: enters.count(cpu) for cpu in enters}
    cpus = sorted({0, *opened, *(int(line.split()[1]) for line in lines
                                 if re.fullmatch(rb" *online +\d+ *", line))})
    places = {cpu: [found[1] for found in made if found and int(found[2]) == cpu] for cpu in cpus}
    asked = ["end", "awaits"]
    for cpu in cpus:
        asked += [f"deliver {place}" for place in places[cpu]]
        asked += [f"exit {cpu}"] * opened.get(cpu, 0) + [f"idle {cpu}"]
    said = iter(behind(asked))
    if next(said) == NONE_RUNS:
        return ["no grace period runs"], []
    awaited = [int(cpu) for cpu in re.findall(r"\d+", next(said))]
    found = [Processor(cpu, [(place, next(said)) for place in places[cpu]],
                       [next(said) for _ in range(opened.get(cpu, 0))], next(said))
             for cpu in cpus]
    held = [processor for processor in found if processor.cpu in awaited]
    way = [event for processor in held for event in processor.events()] + ["end"]
    return ([f"processor {it.cpu}: {it.lacks()}" for it in held] or ["nobody is awaited"],
            list(zip(way, behind(way))))
