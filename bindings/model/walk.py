"""Walks all states of a protocol of a few threads, over x86's store buffers.

A protocol is a function from a state to what may come next: states, or sentences that say what went
wrong. A store waits in its thread's buffer until it reaches memory, at any time and in order; a
load finds the thread's own store first. An exchange and a fence wait until the buffer is empty.
"""


def reach(start, steps):
    """The states that are reached, each with those that come next, and what goes wrong, if any."""
    after, todo = {}, [start]
    while todo:
        state = todo.pop()
        if state in after:
            continue
        found = list(steps(state))
        for it in found:
            if isinstance(it, str):
                return after, it
        after[state] = found
        todo += found
    return after, None


def cannot_come_to(after, goal):
    """The states from which no way leads to one that fulfils the goal."""
    before = {state: [] for state in after}
    for state, nexts in after.items():
        for it in nexts:
            before[it].append(state)
    able, todo = set(), [it for it in after if goal(it)]
    while todo:
        state = todo.pop()
        if state not in able:
            able.add(state)
            todo += before[state]
    return after.keys() - able


def load(memory, buffer, word):
    """What a thread loads: its own last store to the word, else what stands in memory."""
    for stored, value in reversed(buffer):
        if stored == word:
            return value
    return memory


def judge(what, start, steps, parts, goal):
    """Walks the whole protocol, and each one that lacks a part. Yields what is not as it has to be:
    the whole is right and comes to its goal from each state, and each other one goes wrong."""
    after, wrong = reach(start, steps(None))
    if wrong:
        yield f"{what}: {wrong}"
        return
    stuck = cannot_come_to(after, goal)
    if stuck:
        yield f"{what}: from {len(stuck)} states it comes to no end, as from {min(stuck, key=repr)}"
    for part in parts:
        after, wrong = reach(start, steps(part))
        if not wrong and not cannot_come_to(after, goal):
            yield f"{what}: it is right without {part} too"
