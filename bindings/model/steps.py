"""Reads the steps that functions take out of Rattle's sources, in the order in which they stand.

A quote is a piece of a line, and what stands for it: names of steps, and of functions as
'Type::name', whose own steps come there. A quote that ends in '{' begins a block: its steps are
taken where what comes last before it says so, and else passed over. What reads as a step in a file
and is none of the quotes', or of a function that is not read, is named by `unread`.
"""
import os
import re


def without_generics(line):
    """A line with nothing between '<' and '>'."""
    shorter = re.sub("<[^<>]*>", "", line)
    return line if shorter == line else without_generics(shorter)


class Sources:
    """The functions of these files, and which of their lines were read."""

    def __init__(self, root, quotes):
        self.quotes = sorted(quotes.items(), key=lambda it: -len(it[0]))
        self.lines, self.functions, self.read = {}, {}, set()
        for name in sorted(os.listdir(root)):
            with open(f"{root}/{name}", encoding="utf-8") as file:
                self.lines[name] = [it.split("//")[0].rstrip() for it in file]
            self.find_functions(name)

    def find_functions(self, name):
        """Where each function of a file has its body."""
        of, lines = None, self.lines[name]
        for at, line in enumerate(lines):
            if line.startswith("impl") and line.endswith("{"):
                of = without_generics(line).split(" for ")[-1].split()[-2]
            found = re.match(r"( *)(?:pub(?:\(crate\))? )?fn (\w+)", line)
            if found and f"{found[1]}}}" in lines[at:]:
                end = lines.index(f"{found[1]}}}", at)
                self.functions.setdefault(f"{of}::{found[2]}", (name, at + 1, end))

    def steps(self, function):
        """The steps of a function. One behind which a block stands is a pair with its steps."""
        name, start, end = self.functions[function]
        return self.within(name, start, end)

    def within(self, name, start, end):
        found, at = [], start
        while at < end:
            line = self.lines[name][at]
            quote, steps = next(((it, steps) for it, steps in self.quotes if it in line), ("", ()))
            if quote:
                self.read.add((name, at))
            found += self.expanded(steps)
            if quote.endswith("{"):
                indent = re.match(" *", line)[0]
                close = next(it for it in range(at + 1, end)
                             if self.lines[name][it].startswith(f"{indent}}}"))
                found[-1] = (found[-1], tuple(self.within(name, at + 1, close)))
                at = close
            at += 1
        return found

    def expanded(self, steps):
        """These steps, where each function's own come in its place."""
        return [own for it in steps for own in (self.steps(it) if "::" in it else (it,))]

    def missing(self):
        """The quotes that stand in no line of any file."""
        lines = [line for lines in self.lines.values() for line in lines]
        return [it for it, _ in self.quotes if not any(it in line for line in lines)]

    def unread(self, steps, no_steps):
        """What reads as a step by its file's pattern, or by that of '', and was not read as one."""
        for name, lines in self.lines.items():
            for at, line in enumerate(lines):
                if (name, at) not in self.read and re.search(steps.get(name, steps[""]), line) \
                        and not re.search(no_steps, line):
                    yield f"{name}:{at + 1}: {line.strip()}"
