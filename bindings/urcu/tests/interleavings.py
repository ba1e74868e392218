"""Walks all interleavings of small programs over words that they share, with a store buffer for
each thread. A program is a text, a step a line:

    WORD = VALUE           a store: it waits in the thread's buffer, and reaches memory later
    name = WORD            a load, of the thread's own buffer first
    name = swap WORD V     locked: the buffer is empty before it. Gives what stood there.
    name = add WORD V      the same, which adds
    name = max WORD V      the same, which stores V where that is greater
    name = cas WORD A B    the same, which stores B where A stands; gives 1 where it did, else 0
    fence                  the buffer is empty before it
    fence all              the buffer of each thread is empty before it, as membarrier(2) has it
    lock, unlock           a mutex, by acquire and release alone: to take it empties no buffer
    wait, signal           a condition of that mutex
    if name goto L, unless name goto L, goto L, maybe L (it may go there or not), L:, end
    if name is N goto L, where N is a number or a name
    must name: MESSAGE     what goes wrong where the name is 0
    told WORD = VALUE      the model's own word: it is in memory at once, and empties no buffer

A WORD is one of those given at first; 'good.p' is the word good0 where p is 0. A name that was
never set is 0. A VALUE is a number or a name. A thread may have a handler: a program that comes
once, between any two of its steps, has its buffer, and runs to its end before the thread goes on.

"""
import re

ASLEEP = "a thread sleeps for good"
ROOM = 8  # of a buffer


class Program:
    """The steps of one text, without its labels."""

    def __init__(self, text):
        self.steps, labels = [], {}
        for line in text.strip().splitlines():
            line = line.split("|")[0].strip()
            if line.endswith(":") and not line.startswith("must "):
                labels[line[:-1]] = len(self.steps)
            elif line:
                self.steps.append(line)
        self.steps.append("end")
        self.code = [self.parse(step, labels) for step in self.steps]

    @staticmethod
    def parse(step, labels):
        found = re.fullmatch(r"(if|unless) (\w+) goto (\w+)", step)
        if found:
            return found[1], found[2], labels[found[3]]
        found = re.fullmatch(r"if (\w+) is (\w+) goto (\w+)", step)
        if found:
            return "is", found[1], found[2], labels[found[3]]
        found = re.fullmatch(r"(goto|maybe) (\w+)", step)
        if found:
            return found[1], labels[found[2]]
        found = re.fullmatch(r"told ([\w.]+) = (\w+)", step)
        if found:
            return "told", found[1], found[2]
        found = re.fullmatch(r"must (\w+): (.*)", step)
        if found:
            return "must", found[1], found[2]
        found = re.fullmatch(r"(\w+) = (swap|add|max|cas) ([\w.]+) (-?\w+) ?(\w*)", step)
        if found:
            return found[2], found[1], found[3], found[4], found[5]
        found = re.fullmatch(r"([\w.]+) = ([\w.]+)", step)
        if found:
            return "move", found[1], found[2]
        return (step,)


# A frame is a program under way: its number, its next step, its names. A thread is its frames (its
# handler's last), its buffer, whether its handler may still come, and whether it sleeps.
class Walk:
    """All states that the programs reach. `words` has each word's first value; a program's handler
    stands in `handlers` at the program's place."""

    def __init__(self, words, programs, handlers=()):
        self.words = {name: at for at, name in enumerate(["mutex", *words])}
        self.memory = (0, *words.values())
        self.programs = [Program(it) for it in programs]
        self.handlers = {}
        for at, text in dict(handlers).items():
            self.handlers[at] = len(self.programs)
            self.programs.append(Program(text))
        self.count = len(programs)
        self.fences_all = any("fence all" in it.steps for it in self.programs)

    def run(self):
        """What goes wrong, or None."""
        threads = tuple((((at, 0, ()),), (), at in self.handlers, False)
                        for at in range(self.count))
        first = (self.memory, threads)
        self.seen, todo = {first}, [first]
        seen = self.seen
        while todo:
            state = todo.pop()
            some = False
            for new in self.steps(state):
                if isinstance(new, str):
                    return new
                some = True
                if new not in seen:
                    seen.add(new)
                    todo.append(new)
            if not some and not all(self.is_over(it) for it in state[1]):
                return ASLEEP
        return None

    def is_over(self, thread):
        (number, at, _), = thread[0] if len(thread[0]) == 1 else (thread[0][0],)
        return len(thread[0]) == 1 and self.programs[number].steps[at] == "end"

    def is_unseen(self, thread):
        """Whether its next step goes to its buffer alone, so that no other thread's step is changed
        by it: then it is taken at once. (A fence in all threads is changed by it.)"""
        if self.fences_all:
            return False
        frames, buffer, may_come, asleep = thread
        number, at, names = frames[-1]
        kind, *rest = self.programs[number].code[at]
        is_store = kind == "move" and self.word(rest[0], dict(names)) is not None
        return (kind == "unlock" or is_store) \
            and not may_come and not asleep and len(buffer) < ROOM

    def steps(self, state):
        memory, threads = state
        alone = next((at for at, it in enumerate(threads) if self.is_unseen(it)), None)
        for who, (frames, buffer, may_come, asleep) in enumerate(threads):
            def changed(frames=frames, buffer=buffer, may_come=may_come, asleep=asleep,
                        memory=memory, threads=threads, who=who):
                row = list(threads)
                row[who] = (frames, buffer, may_come, asleep)
                return memory, tuple(row)

            if alone is not None:
                if who == alone:
                    yield from self.step(memory, threads, who, changed)
                continue
            if buffer:
                (word, value), rest = buffer[0], buffer[1:]
                yield changed(buffer=rest, memory=put(memory, word, value))
            if asleep:
                continue
            if may_come and not self.is_over(threads[who]):
                handler = (self.handlers[who], 0, ())
                yield changed(frames=(*frames, handler), may_come=False)
            yield from self.step(memory, threads, who, changed)

    def step(self, memory, threads, who, changed):
        frames, buffer, _, _ = threads[who]
        number, at, names = frames[-1]
        code = self.programs[number].code[at]
        kind = code[0]

        def word(name):
            return self.word(name, dict(names))

        def value(name):
            return value_of(name, dict(names))

        def on(to=at + 1, **new):
            kept = {**dict(names), **new.pop("set", {})}
            to, wrong = (to, None) if "asleep" in new else self.run_on(number, to, kept)
            if wrong:
                return wrong
            frame = (number, to, tuple(sorted(it for it in kept.items() if it[1])))
            return changed(frames=(*frames[:-1], frame), **new)

        if kind == "end":
            if len(frames) > 1:
                yield changed(frames=frames[:-1])
        elif kind == "maybe":
            yield on(code[1])
            yield on()
        elif kind in ("goto", "if", "unless", "is", "must"):
            yield on(at)
        elif kind == "told":
            yield on(memory=put(memory, word(code[1]), value(code[2])))
        elif kind == "move" and word(code[1]) is not None:
            if len(buffer) < ROOM:
                yield on(buffer=(*buffer, (word(code[1]), value(code[2]))))
        elif kind == "move" and word(code[2]) is not None:
            yield on(set={code[1]: load(memory, buffer, word(code[2]))})
        elif kind in ("swap", "add", "max", "cas") and not buffer:
            there = memory[word(code[2])]
            first = value(code[3])
            after = {"swap": first, "add": there + first, "max": max(there, first),
                     "cas": value(code[4]) if there == first else there}[kind]
            gives = int(there == first) if kind == "cas" else there
            yield on(set={code[1]: gives}, memory=put(memory, word(code[2]), after))
        elif kind == "fence" and not buffer:
            yield on()
        elif kind == "fence all" and not any(it[1] for it in threads):
            yield on()
        elif kind == "lock":
            if memory[0] == 0 and all(it[0] != 0 for it in buffer):
                yield on(memory=put(memory, 0, 1))
        elif kind == "unlock":
            yield on(buffer=(*buffer, (0, 0)))
        elif kind == "wait" and not buffer:
            yield on(to=at, memory=put(memory, 0, 0), asleep=True)
        elif kind == "signal":
            yield self.woken(memory, threads, who, on)

    def word(self, name, names):
        base, _, index = name.partition(".")
        return self.words.get(f"{base}{value_of(index, names)}" if index else name)

    def run_on(self, number, at, names):
        """The next step that others see, or what goes wrong before it."""
        code = self.programs[number].code
        while True:
            kind, *rest = code[at]
            if kind == "goto":
                at = rest[0]
            elif kind == "is":
                at = rest[2] if value_of(rest[0], names) == value_of(rest[1], names) else at + 1
            elif kind in ("if", "unless"):
                at = rest[1] if bool(value_of(rest[0], names)) == (kind == "if") else at + 1
            elif kind == "must":
                if not value_of(rest[0], names):
                    return at, rest[1]
                at += 1
            elif kind == "move" and all(self.word(it, names) is None for it in rest):
                names[rest[0]] = value_of(rest[1], names)
                at += 1
            else:
                return at, None

    def woken(self, memory, threads, who, on):
        """Each sleeper goes on behind its wait, where it takes the mutex first."""
        _, row = on()
        row = list(row)
        for other, (frames, buffer, may_come, asleep) in enumerate(threads):
            if other != who and asleep:
                number, at, names = frames[-1]
                row[other] = ((*frames[:-1], (number, at + 1, names)), buffer, may_come, False)
        return memory, tuple(row)


def value_of(name, names):
    return int(name) if name.lstrip("-").isdigit() else names.get(name, 0)


def put(memory, word, value):
    return (*memory[:word], value, *memory[word + 1:])


def load(memory, buffer, word):
    for at, value in reversed(buffer):
        if at == word:
            return value
    return memory[word]
