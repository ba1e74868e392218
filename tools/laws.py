"""The laws: where each begins, its words, and the calls that keep it, for the tools beside.

A law is a function of a module whose name ends in 'laws' or is 'progress'; those of definition_laws
pin the definitions, and no call keeps them. tools/kept_by has, below a line '[CRATE]', a line
'LAW: CALL, CALL' for each other law, which goes on in lines that begin with blanks.

The notes of the calls of C name the laws of rcu_c that they keep.
"""
import functools
import os
import re

import doc_comments
from checks import ROOT, files, headers, read

KEPT_BY = "tools/kept_by"
FOLDER = "crates/rcu_c/src/"  # of the laws that the calls of C keep
FUNCTION = re.compile(r"\s*(?:pub(?:\(crate\))? )?fn (\w+)")
# A link to a line, in a page or in a note of the header.
TO_LINE = re.compile(r"\[`([^`]+)`\]\(([^)\s]+\.rt)#L(\d+)\)|\b(\w+) \((\w+\.rt)#L(\d+)\)")


@functools.lru_cache(maxsize=None)
def laws_of(crate):
    """The file and the line of each law of a crate, by its path in the crate."""
    found = {}
    for path in files():
        module = re.fullmatch(rf"crates/{crate}/src/((?:\w+/)*(?:\w*laws|progress))\.rt", path)
        for number, line in enumerate(read(path).splitlines(), 1) if module else ():
            if law := FUNCTION.match(line):
                found[f"{module[1].replace('/', '::')}::{law[1]}"] = path, number
    return found


def place_of(crate, name):
    """Where a law of that path begins, or None."""
    return laws_of(crate).get(name.removeprefix(f"{crate}::"))


def is_of_definitions(name):
    return "definition_laws::" in name


@functools.lru_cache(maxsize=None)
def words_in(path):
    """The doc comment of each function of a file, as paragraphs."""
    return {it.name: it.paragraphs for it in doc_comments.calls_in(read(path))}


def words_of(crate, name):
    """The paragraphs of a law's doc comment."""
    path, _ = place_of(crate, name)
    return words_in(path).get(name.rpartition("::")[2]) or [""]


@functools.lru_cache(maxsize=None)
def kept_by():
    """Of each crate the rows of tools/kept_by: a law, or 'broken', with its calls."""
    text = re.sub(r"(?m)^#.*\n", "", read(KEPT_BY))
    rows = {}
    for part in re.split(r"(?m)^\[", text)[1:]:
        crate, _, its = part.partition("]\n")
        lines = re.sub(r"\n +", " ", its).split("\n")
        rows[crate] = {law: [] if calls == "none" else calls.split(", ")
                       for law, _, calls in (it.partition(": ") for it in lines if it)}
    return rows


def renumbered(text):
    """A page, with the lines of the laws that it links to."""
    def line(found):
        for name, (path, number) in laws_of(found["crate"]).items():
            if path.endswith(f"/{found['file']}") and name.split("::")[-1] == found["name"]:
                return f"{found['before']}#L{number})"
        return found[0]

    return re.sub(r"(?P<before>\[`(?:\w+::)*(?P<name>\w+)`\]\((?:\.\./)?crates/(?P<crate>\w+)/"
                  r"(?P<file>\S+?\.rt))#L\d+\)", line, text)


@functools.lru_cache(maxsize=None)
def kept_in_c():
    """The laws that each call of C keeps, with their places."""
    kept = {}
    for name, calls in kept_by()["rcu_c"].items():
        if place := place_of("rcu_c", name):
            for call in calls:
                kept.setdefault(call.removesuffix("_unfenced"), []).append(
                    (name.split("::")[-1], *place))
    return kept


def note_of(call):
    """The laws that a call of C keeps, as a paragraph of its note; no paragraph if it keeps none."""
    kept = kept_in_c().get(call.removesuffix("_unfenced"), [])
    rows = ", ".join(f"{name} ({path.removeprefix(FOLDER)}#L{line})" for name, path, line in kept)
    return [f"Law{'s' * (len(kept) > 1)} in {FOLDER}: {rows}."] if kept else []


def links_to_other_lines():
    """The links to a line of code at which the function of that name does not begin."""
    for page in (it for it in files() if it.endswith(".md") or it in headers()):
        for found in TO_LINE.finditer(read(page)):
            name, path, line = (it for it in found.groups() if it)
            folder = FOLDER if found[5] else os.path.dirname(page)
            path = os.path.normpath(os.path.join(folder, path))
            lines = read(path).splitlines() if os.path.isfile(f"{ROOT}/{path}") else []
            there = FUNCTION.match(lines[int(line) - 1]) if 0 < int(line) <= len(lines) else None
            if not there or there[1] != name.split("::")[-1]:
                yield f"{page}: {path}#L{line} is not {name}"
