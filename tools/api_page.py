"""The page calls.md of a release, for tools/write_calls: of each public call of the crates that a
program in Rattle uses what it does in a few words, and its faults.

The words are the first sentence of the doc comment, up to its first colon. A list has only the names
of questions, which take nothing and have no fault, and of calls whose doc comment names the call of
another type that does the same. It has no laws, and no calls of modules that are public for the
crates above, for tests or for proofs (UNLISTED).
"""
import os
import re
import textwrap

import doc_comments as source
from checks import read

PAGE = "calls.md"
CRATES = "rcu_state rcu_core rcu_live rcu_defer rcu_request rcu_cell rcu_graph rcu_map".split()
UNLISTED = {"rcu_live": "board client client_words in_part parts reading shared within words".split(),
            "rcu_graph": ["known", "places"]}
WIDTH = 100
HEAD = """# Calls of the crates

For those who write Rattle. Each public call: the faults in parentheses, in the order in which they
are tested, and what the call does. [RATTLE.md](RATTLE.md) has programs, and what holds of all calls.
Signatures, ranges and costs are in `crates/NAME/src`, each call beside its proved contract.
"""


def listed(crate):
    """The calls of a crate that the page has."""
    for path in source.files_of(crate):
        module = os.path.basename(path).removesuffix(".rt")
        if not module.endswith("laws") and module not in UNLISTED.get(crate, ()):
            yield from source.calls_in(read(path))


def name_of(call):
    return f"{call.within.split()[-1]}::{call.name}" if call.within else call.name


def is_question(call):
    return call.parts()[1] in (["&self"], ["self"]) and call.result() in (
        "bool", "u32", "u64", "usize", "&A", "Cookie", "Tag")


def said(call):
    """The numbers of a call's faults, and the first sentence of its doc comment up to its first
    colon."""
    texts = [re.sub(r"\[(`[^`]*`)\](?:\([^)]*\))?", r"\1", it) for it in call.paragraphs]
    first = re.split(r"(?<=\.) (?=[A-Z`(])", texts[0])[0] if texts else ""
    first = re.sub(r" \((?:Linux|liburcu|what crossbeam)[^)]*\)", "", first)
    first = re.split(r": |, so that |, and costs as ", first)[0].rstrip(".")
    first = f" {first}." if first else ""
    for text in texts:
        if re.match(r"Faults?\b", text):
            numbers = re.findall(r"\((\d+)\)", text)
            first = f" ({', '.join(numbers)}):{first}"
    return first if first.startswith(" (") else f":{first}"


def filled(text):
    return textwrap.fill(text, WIDTH, subsequent_indent="  ", break_on_hyphens=False) + "\n"


def faults(call):
    return re.match(r"[^:]*", said(call))[0]


def like(call, own):
    """The type in the list whose call of that name does the same, as the first sentence says."""
    found = re.search(r", as `(\w+)::(\w+)`", said(call))
    same = [it for it in own if found and name_of(it) == f"{found[1]}::{call.name}"]
    return found[1] if same and found[2] == call.name and faults(same[0]) == faults(call) else None


def rows(own):
    """The list of these calls, type by type."""
    for kind in dict.fromkeys(it.within for it in own):
        alike = {}
        for call in (it for it in own if it.within == kind):
            of = "which tell what they name" if kind and is_question(call) else like(call, own)
            if of:
                alike.setdefault(of, []).append(f"`{call.name}`")
            else:
                yield filled(f"- `{name_of(call)}`{said(call)}")
        for of, names in alike.items():
            what = of if " " in of else f"as those of `{of}`"
            yield filled(f"- `{kind.split()[-1]}`, {what}: {', '.join(names)}.")


def parts():
    """Each crate of the page, with its list."""
    return {it: "".join(rows(list(listed(it)))) for it in CRATES}


def written():
    """The page."""
    return HEAD + "".join(f"\n## `{crate}`\n\n{its}" for crate, its in parts().items())
