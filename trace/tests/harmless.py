"""What may be amiss with a trace although the kernel has no bug, and the sentence that says so.

Each way takes the lines of a trace and a place in them, and returns other lines: the comparison
finds no difference there."""
import re

TIME = re.compile(r"(?<= )\d+\.\d+(?=: )")
CPU = re.compile(r"\[(\d+)\]")
# Of the tree of the traces: three levels, two CPUs in a leaf.
INIT = re.compile(r"(rcu_grace_period_init: \S+ -?\d+) (\d) (\d) (\d) (\w+)$")
REPORT = re.compile(r"(rcu_quiescent_state_report: \S+ -?\d+) (\w+)>(\w+) (\d) (\d) (\d) (\d)$")
LEAF = "2"
TURNED = {"Start": "End", "End": "Start", "Startirq": "Endirq", "Endirq": "Startirq"}


def cpu_of(line):
    found = None if line.startswith("#") else CPU.search(line)
    return int(found[1]) if found else None


def begins_in_the_midst(lines, at):
    """The first lines are not there."""
    return lines[at:]


def events_are_lost(lines, at, count=40):
    """Events of one CPU are lost, and Linux says so at the next event of that CPU."""
    cpu = cpu_of(lines[at])
    own = [it for it in range(at, len(lines)) if cpu_of(lines[it]) == cpu]
    gone, then = set(own[:count]), own[count] if len(own) > count else len(lines)
    return [it for place, it in enumerate(lines[:then]) if place not in gone] \
        + [f"CPU:{cpu} [LOST {len(gone)} EVENTS]"] + lines[then:]


def buffer_was_overwritten(lines, at):
    """The first events of one CPU were overwritten."""
    cpu = cpu_of(lines[at])
    return [it for it in lines[:at] if cpu_of(it) != cpu] \
        + [f"##### CPU {cpu} buffer started ####"] + lines[at:]


def times_are_coarse(lines, digits):
    """The clock is coarse, and events of one time are in the order of their CPUs."""
    events = [TIME.sub(lambda it: it[0][:-digits] + "0" * digits, it) for it in lines
              if cpu_of(it) is not None]
    return sorted(events, key=lambda it: (float(TIME.search(it)[0]), cpu_of(it)))


def another_flavour(lines, _):
    """A second flavour has grace periods beside the first one's."""
    other = [it.replace("rcu_sched ", "rcu_bh ") for it in lines]
    return [line for two in zip(lines, other) for line in two[:1 + (two[0] != two[1])]]


def kernel_before_6_12(lines, _):
    """rcu_watching has its former name, and the words mean the opposite."""
    return [re.sub(r"rcu_watching: (\w+)", lambda it: f"rcu_dyntick: {TURNED[it[1]]}", it)
            for it in lines]


def kthread_of(cpu, line):
    """The line of the kthread that invokes the CPU's callbacks."""
    return re.sub(r"^\S+", f"rcuos/{cpu}-30", line)


def offloaded_callbacks_stay(lines, _):
    """The callbacks are offloaded (rcu_nocbs): those of a CPU that goes offline stay on its list,
    and its kthread invokes them, not the CPU that took it down."""
    changed, queued_on, start = [], {}, {}
    for line in lines:
        cpu, found = cpu_of(line), re.search(r" (rcu_\w+): (?:\S+ (rhp=\w+))?", line)
        event = found and found[1]
        if event == "rcu_callback":
            queued_on[found[2]] = cpu
        elif event == "rcu_batch_start":
            start[cpu], line = (line, None), None
        elif event == "rcu_invoke_callback":
            own = queued_on.pop(found[2], cpu)
            first, last_own = start.get(cpu, (line, own))
            changed += [kthread_of(own, first)] if own != last_own else []
            start[cpu], line = (first, own), kthread_of(own, line)
        changed += [line] if line else []
    return changed


def tree_of_one_node(lines, _):
    """The kernel has one rcu_node, a root that is a leaf, too: as by default with up to 16 CPUs."""
    changed, masks = [], {}

    def whole():
        return sum(mask << low for low, mask in masks.items())
    for line in lines:
        init, report = INIT.search(line), REPORT.search(line)
        if init and init[2] == LEAF:
            masks[int(init[3])] = int(init[5], 16)
        if report and report[4] == LEAF:
            low = int(report[5])
            masks[low] = int(report[3], 16)
            changed.append(line[:report.start()] + f"{report[1]} {int(report[2], 16) << low:x}>"
                           f"{whole():x} 0 0 7 {report[7]}")
        elif report:  # (its children have no CPU left: one that went offline made no report)
            first, wide = int(report[5]), (int(report[6]) - int(report[5]) + 1) // 2
            masks.update({low: 0 for low in masks if low >= first
                          and int(report[2], 16) >> (low - first) // wide & 1})
        elif init and init[2] == LEAF and init[4] == "7":
            changed.append(line[:init.start()] + f"{init[1]} 0 0 7 {whole():x}")
        elif not init:
            changed.append(line)
    return changed


def expedited_too(lines, at):
    """An expedited grace period begins and ends."""
    head = lines[at].partition("rcu_")[0] + "rcu_exp_grace_period: rcu_sched "
    return lines[:at] + [f"{head}{it}" for it in ("4 snap", "5 start", "5 select", "8 end")] \
        + lines[at:]


# Each way, the places at which it is tried (of a thousand of the lines), and what is said.
HARMLESS = [
    (begins_in_the_midst, (12, 60, 170, 290, 430, 610, 770, 910), "begins in the midst of a run"),
    (events_are_lost, (30, 90, 210, 350, 520, 640, 800, 930), "events are missing"),
    (buffer_was_overwritten, (20, 110, 300, 560, 820), "events are missing"),
    (another_flavour, (0,), "events of the flavour rcu_bh, which are not compared"),
    (kernel_before_6_12, (0,), "1650 wakings: agree"),
    (tree_of_one_node, (0,), "1002 callbacks invoked: agree"),
    (offloaded_callbacks_stay, (0,), "1002 callbacks handed out: agree"),
    (expedited_too, (400,), "1 expedited grace periods, which are not compared"),
]
