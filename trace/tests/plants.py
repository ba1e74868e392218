"""Ways to make a trace wrong, as a kernel with a bug would, and what has to be said of each.

Each takes the lines of a trace and a grace period, and changes the lines in one place. The words
are a part of the first difference that has to be found."""
import re

from harmless import tree_of_one_node


def find(lines, pattern, first=0, last=None):
    last = len(lines) if last is None else last
    return [at for at in range(first, last) if re.search(pattern, lines[at])]


def period(lines, number):
    """The places of its start and its end."""
    start = find(lines, rf"rcu_grace_period: \S+ {number} start")[0]
    return start, find(lines, rf"rcu_grace_period: \S+ {number} end", start)[0]


def leaf_reports(lines, number):
    start, end = period(lines, number)
    levels = [int(re.search(r"rcu_grace_period_init: \S+ \S+ (\d+)", lines[at])[1])
              for at in find(lines, "rcu_grace_period_init", start, end)]
    return find(lines, rf"rcu_quiescent_state_report: \S+ {number} \w+>\w+ {max(levels)} ", start,
                end)


def cpu_of(line):
    return int(re.search(r"\[(\d+)\]", line)[1])


def report_is_lost(lines, number):
    """A CPU's report to its leaf is left out."""
    del lines[leaf_reports(lines, number)[0]]


def last_report_is_lost(lines, number):
    """The last report to a leaf is left out, and what it told the nodes above."""
    _, end = period(lines, number)
    last = leaf_reports(lines, number)[-1]
    for at in reversed(find(lines, "rcu_quiescent_state_report", last, end)):
        del lines[at]


def end_is_early(lines, number):
    """The grace period ends before its last report."""
    _, end = period(lines, number)
    lines.insert(leaf_reports(lines, number)[-1], lines.pop(end))


def report_is_of_another_cpu(lines, number):
    """A report is that of the leaf's other CPU."""
    at = next(it for it in leaf_reports(lines, number) if re.search(r" (1>2|2>1) ", lines[it]))
    lines[at] = re.sub(r" (1>2|2>1) ", lambda it: " 2>1 " if it[1] == "1>2" else " 1>2 ", lines[at])


def report_without_quiescent_state(lines, number):
    """A CPU reports, and its cpuqs is left out."""
    start, _ = period(lines, number)
    del lines[find(lines, rf"rcu_grace_period: \S+ {number} cpuqs", start)[0]]


def scan_of_one_that_is_awake(lines, number):
    """force_qs_rnp takes a CPU as idle that is not: its last going idle is left out."""
    start, end = period(lines, number)
    at = find(lines, r"rcu_fqs: \S+ \S+ \d+ dti", start, end)[0]
    found = re.search(r"rcu_fqs: \S+ \S+ (\d+) dti", lines[at])
    cpu = rf"\[0*{found[1]}\].*"
    counts = find(lines, rf"{cpu}rcu_watching: Start", find(lines, "fqsstart", start, end)[0], at) \
        or find(lines, rf"{cpu}rcu_grace_period: \S+ {number} cpuqs", start, at)
    changes = find(lines, rf"{cpu}rcu_watching: (?:Start|End)", 0, at)
    if counts or len(changes) < 4 or "End" not in lines[changes[-1]] \
            or "Start" not in lines[changes[-2]]:
        raise StopIteration  # (it counts by something else, or the trace knows too little of it)
    del lines[changes[-1]]


def mask_of_a_leaf(lines, number, old, new):
    start, end = period(lines, number)
    at = next(it for it in find(lines, "rcu_grace_period_init", start, end)
              if re.search(rf" 2 \d+ \d+ {old}$", lines[it]))
    lines[at] = re.sub(r"\w+$", new, lines[at])


def offline_cpu_is_awaited(lines, number):
    """The kernel waits for a CPU that is offline."""
    mask_of_a_leaf(lines, number, "[12]", "3")


def online_cpu_is_forgotten(lines, number):
    """The kernel forgets a CPU that is online."""
    mask_of_a_leaf(lines, number, "3", "2")


def inner_mask_lacks_a_child(lines, number):
    """The root begins without the bit of a child that has CPUs to wait for."""
    start, end = period(lines, number)
    at = find(lines, rf"rcu_grace_period_init: \S+ {number} 0 ", start, end)[0]
    lines[at] = re.sub(r"3$", "1", lines[at])


def callback_is_early(lines, number):
    """A batch of callbacks that waited for this grace period comes before its first report."""
    bring_batch_forward(lines, number, "rcu_quiescent_state_report")


def bring_batch_forward(lines, number, event):
    """A batch of callbacks that waited for this grace period comes before such an event of it."""
    start, end = period(lines, number)
    queued = {re.search(r"rhp=\w+", lines[at])[0]
              for at in find(lines, r"rcu_callback: ", period(lines, number - 4)[0], start)}
    first = next(at for at in find(lines, r"rcu_invoke_callback: ", end)
                 if re.search(r"rhp=\w+", lines[at])[0] in queued)
    cpu = cpu_of(lines[first])
    begin = find(lines, rf"\[0*{cpu}\].*rcu_batch_start: ", 0, first)[-1]
    stop = find(lines, rf"\[0*{cpu}\].*rcu_batch_end", begin)[0]
    moved = [at for at in range(begin, stop + 1)
             if cpu_of(lines[at]) == cpu and re.search("rcu_batch|rcu_invoke", lines[at])]
    taken = [lines[at] for at in moved]
    for at in reversed(moved):
        del lines[at]
    at = find(lines, event, start, end)[0]
    lines[at:at] = taken


def callbacks_change_places(lines, number):
    """In one batch a CPU's callback is invoked before one that it queued earlier."""
    _, end = period(lines, number)
    queued = {re.search(r"rhp=\w+", lines[at])[0]: cpu_of(lines[at])
              for at in find(lines, r"rcu_callback: ", 0, end)}
    last = {}  # of a CPU's batch: where it invoked a callback, by the CPU that queued that
    for at in find(lines, r"rcu_invoke_callback: |rcu_batch_start: ", end):
        cpu = cpu_of(lines[at])
        if "rcu_batch_start" in lines[at]:
            last[cpu] = {}
            continue
        by = queued.get(re.search(r"rhp=\w+", lines[at])[0])
        before = last.get(cpu, {}).get(by)
        if by is not None and before is not None:
            one, other = (lines[it].split("rcu_invoke_callback: ") for it in (before, at))
            lines[before] = "rcu_invoke_callback: ".join((one[0], other[1]))
            lines[at] = "rcu_invoke_callback: ".join((other[0], one[1]))
            return
        last.setdefault(cpu, {})[by] = at
    raise StopIteration  # (no batch has two callbacks of a CPU)


def report_is_late(lines, number):
    """A report of this grace period comes only in the next one."""
    at = leaf_reports(lines, number)[0]
    lines.insert(leaf_reports(lines, number + 4)[0], lines[at])
    del lines[at]


def report_is_repeated(lines, number):
    """A CPU's report is taken twice."""
    at = leaf_reports(lines, number)[0]
    lines.insert(at + 1, lines[at])


def report_has_an_old_number(lines, number):
    """A report of the grace period before is taken."""
    at = leaf_reports(lines, number)[0]
    lines[at] = lines[at].replace(f" {number} ", f" {number - 4} ", 1)


def number_is_skipped(lines, number):
    """The next grace period has a number that is 4 too great."""
    for at in find(lines, rf" {number}\b", period(lines, number)[0]):
        lines[at] = re.sub(rf" {number}\b", f" {number + 4}", lines[at])


def need_is_too_low(lines, number):
    """Callbacks that are queued while a grace period runs wait for its own end."""
    start, end = period(lines, number)
    at = find(lines, r"rcu_grace_period: \S+ -?\d+ Acc(?:Wait|Ready)CB", start, end)[-1]
    lines[at] = re.sub(r" (-?\d+) Acc", lambda it: f" {int(it[1]) - 4} Acc", lines[at])


def wait_returns_early(lines, number):
    """synchronize_rcu returns while the grace period runs that it waits for."""
    complete = find(lines, r"rcu_sr_normal: .*event=complete", period(lines, number)[1])
    request = next(at for at in find(lines, r"rcu_sr_normal: .*event=request",
                                     period(lines, number)[0]))
    address = re.search(r"rhp=\w+", lines[request])[0]
    at = next(it for it in complete if address in lines[it])
    line = lines.pop(at)
    lines.insert(request + 1, line)


def root_ends_early(lines, number):
    """The root hears that its first child is done, while CPUs of it are awaited."""
    start, end = period(lines, number)
    reports = find(lines, rf"rcu_quiescent_state_report: \S+ {number} \w+>\w+ 0 ", start, end)
    lines.insert(leaf_reports(lines, number)[0], lines.pop(reports[0]))


def note_of_a_period_that_is_over(lines, number):
    """A CPU notes the next grace period before it starts."""
    start, end = period(lines, number)
    at = find(lines, rf"rcu_grace_period: \S+ {number} cpustart", start, end)[-1]
    lines[at] = lines[at].replace(f" {number} ", f" {number + 4} ", 1)


# ---- preemptible RCU: first a trace as such a kernel writes it, then what is wrong in it

def reader_blocks(lines, number):
    """A kernel with CONFIG_PREEMPT: before the grace period a reader is preempted on a CPU of the
    leaf that reports last, and leaves its section after the leaf's last CPU has reported."""
    lines[:] = [re.sub(r"\brcu_sched (?=rhp|-?\d+ |CBs)", "rcu_preempt ", it) for it in lines]
    start, end = period(lines, number)
    reports = leaf_reports(lines, number)
    at = reports[-1]
    found = re.search(r"\w+>0 (\d+ (\d+) \d+) 0$", lines[at])
    chain = find(lines, rf"{number} \w+>\w+ 0 .* 0$", at, end)
    if not found or not chain or not re.search(r"\w+>0 0 ", lines[chain[-1]]):
        raise StopIteration  # (the leaf is not the last one of the root)
    for it in reports:
        if f" {found[1]} 0" in lines[it]:
            lines[it] = re.sub(r"0$", "1", lines[it])
    leaf = found[1]
    time = re.search(r" (\S+): rcu_", lines[at])[1]
    cpu = re.search(r"\[\d+\]", lines[at])[0]
    lines[at + 1:at + 1] = [
        f"reader-77 {cpu} d.... {time}: rcu_unlock_preempted_task: rcu_preempt {number} 77",
        f"reader-77 {cpu} d.... {time}: rcu_quiescent_state_report: preempt_rcu {number} "
        f"0>0 {leaf} 0"]
    then = float(re.search(r" (\S+): rcu_", lines[start])[1]) - 0.000002
    lines.insert(start, f"reader-77 [{int(found[2]):03}] d.... {then:.6f}: rcu_preempt_task: "
                        f"rcu_preempt {number - 1} 77")


def blocked_reader_is_forgotten(lines, number):
    """A leaf with a reader that is preempted does not wait for it: gp_tasks is not set."""
    for at in leaf_reports(lines, number):
        lines[at] = re.sub(r" 1$", " 0", lines[at])


def end_comes_before_a_blocked_reader(lines, number):
    """The grace period ends before the reader that is preempted has left its section."""
    _, end = period(lines, number)
    at = find(lines, "rcu_unlock_preempted_task", 0, end)[-1]
    taken = lines[at:at + 2]
    del lines[at:at + 2]
    lines[end - 1:end - 1] = taken


def one_node_with_a_reader(lines, number):
    """The same in a kernel with one rcu_node: its root has no CPU left while the reader blocks."""
    lines[:] = tree_of_one_node(lines, number)
    reader_blocks(lines, number)


def callback_comes_before_a_blocked_reader(lines, number):
    """A batch comes when the last CPU has reported, and a reader still blocks the grace period."""
    bring_batch_forward(lines, number, "rcu_unlock_preempted_task")


callback_comes_before_a_blocked_reader.made = one_node_with_a_reader
blocked_reader_is_forgotten.made = end_comes_before_a_blocked_reader.made = reader_blocks


# Each way, and a part of what has to be said first.
PLANTS = {
    report_is_lost: "still waits for|hears that CPUs",
    last_report_is_lost: "not reported: the engine still waits",
    end_is_early: "not reported: the engine still waits",
    report_is_of_another_cpu: "passed no quiescent state|still waits for|does not wait"
                              "|belongs to an earlier grace period",
    report_without_quiescent_state: "passed no quiescent state",
    scan_of_one_that_is_awake: "passed no quiescent state|still waits for"
                               "|belongs to an earlier grace period",
    offline_cpu_is_awaited: "Linux alone waits for CPU"
                            "|still waits for nobody .* the engine for CPU",
    online_cpu_is_forgotten: "the engine alone waits for CPU",
    inner_mask_lacks_a_child: "and its children's masks make",
    callback_is_early: "before grace period .* has ended|still waits, for grace period",
    callbacks_change_places: "before one that CPU .* queued earlier",
    report_is_late: "still waits for|hears that CPUs|takes a report for grace period",
    report_is_repeated: "for which the engine does not wait",
    report_has_an_old_number: "takes a report for grace period",
    number_is_skipped: "would begin number",
    need_is_too_low: "Linux lets callbacks of CPU .* wait for",
    wait_returns_early: "synchronize_rcu returns on CPU .* before grace period",
    root_ends_early: "the root hears that CPUs",
    note_of_a_period_that_is_over: "so that one does not run there",
    blocked_reader_is_forgotten: "not blocked by preempted readers; by .* it is by task 77",
    end_comes_before_a_blocked_reader: "are done, while the engine waits there for task 77",
    callback_comes_before_a_blocked_reader: "before grace period .* has ended",
}
