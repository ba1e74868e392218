#!/usr/bin/env python3
"""Tries the layer's protocols over all interleavings and store buffers.

Use: tests/model.py

Each word that two threads look at stands in a protocol of protocols.py. None may go wrong. A step
with a '!' behind it is needed: without it something has to go wrong. So it has where a step with a
'%' changes places with the next one. What stands behind a '|' is the code's, and has to be there;
behind a '..' stands what comes later. The last line is 'N passed, M failed'.
"""
import multiprocessing
import os
import re
import sys

sys.dont_write_bytecode = True
from interleavings import Walk
from protocols import PROTOCOLS
from protocols_of_inlined import PROTOCOLS_OF_INLINED

BINDING = f"{os.path.dirname(os.path.realpath(__file__))}/.."
SOURCES = f"{BINDING}/src"


def edits(text):
    """The texts in which a needed step is out, or two have changed places, and what was done."""
    lines = text.strip().splitlines()
    kept = [re.sub(r" [!%] *(\||$)", r" \1", it) for it in lines]
    yield None, "\n".join(kept)
    for at, line in enumerate(lines):
        step = line.split("|")[0].strip()
        if step.endswith("!"):
            yield f"without '{step[:-1].strip()}'", "\n".join(kept[:at] + kept[at + 1:])
        elif step.endswith("%"):
            after = next(it for it in range(at + 1, len(kept)) if kept[it].split("|")[0].strip())
            moved = kept[:at] + kept[at + 1:after + 1] + [kept[at]] + kept[after + 1:]
            yield f"'{step[:-1].strip()}' a step later", "\n".join(moved)


def trials(protocols):
    """Each protocol as it is, and with each of its edits: its name, what was done, the programs."""
    for name, (words, programs, *more) in protocols.items():
        handlers = more[0] if more else {}
        texts = [*programs, *handlers.values()]
        clean = [next(edits(it))[1] for it in texts]
        for at, text in enumerate(texts):
            for what, edited in edits(text):
                if what or at == 0:
                    changed = [*clean[:at], edited, *clean[at + 1:]]
                    yield (name, what, words, changed[:len(programs)],
                           dict(zip(handlers, changed[len(programs):])))


def outcome(trial):
    name, what, *protocol = trial
    walk = Walk(*protocol)
    wrong = walk.run()
    return ((wrong is None) == (what is None),
            f"{name}{', ' + what if what else ''}: {wrong or f'right in {len(walk.seen)} states'}")


def unknown_quotes(protocols, code):
    """What stands behind a '|', and not in the code."""
    for words, programs, *handlers in protocols.values():
        for text in [*programs, *(handlers[0].values() if handlers else ())]:
            for quote in re.findall(r"\| (.*)", text):
                parts = map(re.escape, quote.strip().split(" .. "))
                if not re.search(".*".join(parts), code, re.DOTALL):
                    yield quote.strip()


def try_all(protocols, paths, more=()):
    """Tries the protocols of the code in these files. What was tried besides comes last."""
    counts = {True: 0, False: 0}

    def count(well, what):
        counts[well] += 1
        print(f"{'' if well else 'failed: '}{what}", flush=True)

    with multiprocessing.Pool() as pool:
        for well, said in pool.imap(outcome, trials(protocols)):
            count(well, said)
    code = ""
    for path in paths:
        with open(path, encoding="utf-8") as file:
            code += file.read()
    quotes = sorted(set(unknown_quotes(protocols, code)))
    missing = f": not there: {'; '.join(quotes)}" if quotes else ""
    count(not quotes, f"the model's steps are the code's{missing}")
    for well, what in more:
        count(well, what)
    print(f"{counts[True]} passed, {counts[False]} failed")
    return 1 if counts[False] else 0


if __name__ == "__main__":
    sys.exit(try_all({**PROTOCOLS, **PROTOCOLS_OF_INLINED},
                     [f"{BINDING}/include/urcu/sections.h",
                      *(f"{SOURCES}/{it}" for it in sorted(os.listdir(SOURCES)))]))
