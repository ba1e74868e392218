"""What a check says of the functions in which edits stand, and so of each edit."""
import re

# An open goal, as a check tells it: one that was searched for, or one that its kept answer no
# longer proves.
GOAL = re.compile(r"note: (src/\S+: (?:it is not proved|`search` found no proof).*)")
ANSWER = re.compile(r"(?:\./)?(proofs/(\S+?)/\w+\.antt:\d+:\d+): error: (.*)")
# What a proof file says where the edit took away what it names (as `rt must-fail` has it): of an
# answer, whose name stands first, or of none.
VANISHED = re.compile(r"has no field|is not in scope|has no `|was not admitted|\d+: (?!`)")
# What it says of a function that is proved, given those that are taken at their word.
PROVED = ("no holes", "depends on a hole in ")


class Said:
    """What a check printed of each function: the words of its line, and its own open goals."""

    def __init__(self, lines):
        self.words, self.goals, self.lost, told, refused, before = {}, {}, {}, [], [], None
        for line in lines:
            goal, answer = GOAL.match(line), ANSWER.match(line)
            head = re.match(r"fn \w+::(\S+): (.*)", line)
            if goal:
                told.append(goal[1])
            elif head:
                # (a closure's name has the word fn in it, and then its function's)
                path = re.sub(r"(^|::)fn::", r"\1", head[1])
                self.words.setdefault(path, []).append(head[2])
                # (the goals of a function stand right above its line)
                self.goals.setdefault(path, []).extend(told)
                told = []
            elif answer:
                refused.append([answer[2].replace("/", "::"), f"{answer[1]}: {answer[3]}"])
            elif before and line.startswith("  "):
                # (a long name ends its line)
                refused[-1][1] += f" {line.strip()}"
            before = answer
        for path, why in refused:
            kept = self.lost if VANISHED.search(why) else self.goals
            kept.setdefault(path, []).append(why)

    def of(self, kind, function):
        """What was told of this function and of the closures in it."""
        own = [it for path, it in kind.items() if f"{path}::".startswith(f"{function}::")]
        return [it for of_one in own for it in of_one]


def judge(edit, said):
    """Returns 'refused', 'proved', 'again' (alone) or 'FAILED', and why."""
    goals, words, lost = (said.of(it, edit.function) for it in (said.goals, said.words, said.lost))
    if goals:
        return "refused", goals[0]
    if words and all(it.startswith(PROVED) for it in words):
        return "proved", "no goal of it is open"
    if not edit.is_alone:
        return "again", ""
    if lost:
        return "FAILED", f"a proof only names what the edit took away: {lost[0]}"
    words = words or ["the check names no such function"]
    return "FAILED", f"no open goal of its own is told: {'; '.join(words)}"


def seconds_of(lines):
    """How long the check took for each function, by the lines that tell of its progress."""
    found, before = {}, lines[0][0] if lines else 0
    for now, line in lines:
        progress = re.match(r"checked \w+::(\S+), \d+ of", line)
        if progress:
            found[progress[1]], before = now - before, now
    return found
