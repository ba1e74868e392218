#!/usr/bin/env python3
"""Reads tools/kept_by beside the laws, and the wrong bodies that would break them.

Use: tools/promises.py [CRATE ..]     (no CRATE: all)

prints each law of a crate, the calls that keep it, and the wrong bodies that name it; and then, of
the functions whose contract a wrong body has to break ('broken:' in tools/kept_by), the wrong
bodies of each.

A wrong body (crates/*/must-fail, crates/*/wrong: edits.py) has a line 'promise: NAME', or several.
NAME is a function or a type of the crate, a law of it, or a law of another crate behind that
crate's name: `rcu_core::laws::no_callback_runs_early`.
"""
import collections
import functools
import os
import re
import sys
import textwrap

sys.dont_write_bytecode = True
from checks import files, read
from edits import every_edit
from laws import KEPT_BY, is_of_definitions, kept_by, laws_of, place_of

BROKEN = "broken"


def edits():
    """Each wrong body, as its crate and its name, with the names of its promises."""
    for it in every_edit():
        if it.folder != "harmless":
            yield it.crate, it.name, re.findall(r"(?m)^promise: (.+)$", it.text)


@functools.lru_cache(maxsize=None)
def words_of(crate):
    """The names of a crate's functions, of its types and of its modules."""
    words = set()
    for path in (it for it in files() if re.fullmatch(rf"crates/{crate}/src/.*\.rt", it)):
        words.add(os.path.basename(path).removesuffix(".rt"))
        words |= set(re.findall(r"\b(?:fn|struct|enum|trait|type|mod) (\w+)", read(path)))
    return words


def is_function(crate, name):
    """Whether it names a function, a type or all functions of one, in the crate or, behind its
    name, in another one."""
    other, _, rest = name.partition("::")
    crate, name = (other, rest) if words_of(other) else (crate, name)
    return set(re.findall(r"\w+", name)) <= words_of(crate)


def law_of(crate, name):
    """The law that an edit of the crate names, as its crate and its path; or None."""
    other, _, rest = name.partition("::")
    found = [(at, it) for at, it in ((crate, name), (other, rest)) if place_of(at, it)]
    return found[0] if found else None


def unnamed_promises():
    """The wrong bodies that break nothing with a name."""
    for crate, edit, own in edits():
        if not own:
            yield f"{crate}/{edit} names no promise (a line 'promise: NAME')"
        yield from (f"{crate}/{edit}: no law and no function of {crate} is named {name}"
                    for name in own if not law_of(crate, name) and not is_function(crate, name))


def crates():
    return sorted({it.split("/")[1] for it in files() if re.match(r"crates/\w+/src/", it)})


def mismatches():
    """What does not fit together: a row for each."""
    yield from unnamed_promises()
    named = {(crate, name) for crate, _, own in edits() for name in own}
    for crate in crates():
        rows = kept_by().get(crate, {})
        own = {it for it in laws_of(crate) if not is_of_definitions(it)}
        yield from (f"{KEPT_BY}: {crate} has no row for {it}" for it in sorted(own - rows.keys()))
        for law, calls in rows.items():
            if law not in own | {BROKEN}:
                yield f"{KEPT_BY}: {law} is no law of {crate}"
            for call in calls:
                if not is_function(crate, call):
                    yield f"{KEPT_BY}: {law} of {crate} is kept by {call}, which is no function"
                if law == BROKEN and (crate, call) not in named:
                    yield f"{KEPT_BY}: no wrong body of {crate} breaks {call}"


def tell(asked):
    of_name = collections.defaultdict(list)
    for crate, edit, own in edits():
        for name in own:
            at, it = law_of(crate, name) or (crate, name)
            of_name[at, it].append(edit if at == crate else f"{crate}/{edit}")
    for crate in (it for it in kept_by() if not asked or it in asked):
        print(crate)
        rows = dict(kept_by()[crate])
        broken = rows.pop(BROKEN, [])
        told = [(law, f"{law} (kept by {', '.join(calls)})" if calls else law)
                for law, calls in rows.items()]
        for name, text in told + [(it, it) for it in broken]:
            for words, indent in ((text, "  "), (" ".join(of_name[crate, name]), " " * 6)):
                if words:
                    print(textwrap.fill(words, 100, initial_indent=indent,
                                        subsequent_indent=indent))


if __name__ == "__main__":
    tell(sys.argv[1:])
