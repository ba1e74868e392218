"""Which definitions the statement of a law is made of, for tools/write_calls.

They are those that it names, those that these name, and so on, over the files of crates/*/specs. The
types of the code, and what the toolchain's library defines, are left out. A definition's lines are
counted without comments and blank lines.
"""
import functools
import os
import re

from checks import ROOT, read

BEGIN = re.compile(r"(?:\w+ )?pub (?:(?:record|data) )?(\S+)|  (?:\w+ )*(?:abbrev|unfoldable) pub (\S+)"
                   r"|  pub (?:record|data) (\S+)")
USE = re.compile(r"(?m)^\s*(?:pub )?(?:ghost )?use Rattle\.(rcu_\w+)\.specs\.((?:\w+\.)*\w+)\.\{([^}]*)\}")
WORD = re.compile(r"(?<![.\w])[^\W\d]\w*")


def imported(text):
    """The file of each name of a definition that a text uses, by that name there."""
    found = {}
    for crate, module, names in USE.findall(text):
        path = f"crates/{crate}/specs/{module.replace('.', '/')}.antt"
        if os.path.isfile(f"{ROOT}/{path}"):
            for name in re.split(r"\s*,\s*", names.strip()):
                own, _, other = name.partition(" as ")
                found[other or own] = path, own
    return found


@functools.lru_cache(maxsize=None)
def definitions_of(path):
    """Of each definition of a file its lines of code."""
    found, name = {}, None
    for line in read(path).splitlines():
        code = line.partition("--")[0].rstrip()
        if not code or code.startswith(("use ", "module ")):
            continue
        if begin := BEGIN.match(code):
            name = next(filter(None, begin.groups()))
        if name:
            found.setdefault(name, []).append(code)
    return found


@functools.lru_cache(maxsize=None)
def named_by(path, name):
    """The definitions that a definition names, as their files and names."""
    own, others = definitions_of(path), imported(read(path))
    words = set(WORD.findall(" ".join(own[name])))
    return {others[it] for it in words if it in others} | {
        (path, it) for it in words - others.keys() if it in own and it != name}


def statement(path, name):
    """The text of a law: its head and its clauses."""
    found = re.search(rf"(?ms)^ *(?:pub )?fn {name}\b.*?^ *(?:\{{\}}|\}})$", read(path))
    return found[0] if found else ""


def definitions_behind(laws):
    """The definitions behind these laws, each given as its file and its name."""
    left = set()
    for path, name in laws:
        words, uses = set(WORD.findall(statement(path, name))), imported(read(path))
        left |= {it for word, it in uses.items() if word in words}
    found = set()
    while left:
        at = left.pop()
        if at not in found and at[1] in definitions_of(at[0]):
            found.add(at)
            left |= named_by(*at) - found
    return found


def size_of(found):
    """How many lines of code these definitions have, and how many files they are in."""
    return (sum(len(definitions_of(path)[name]) for path, name in found),
            len({path for path, _ in found}))
