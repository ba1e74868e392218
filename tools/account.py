"""What tools/write_calls writes into docs/TRUST.md, and the page laws.md of a release.

In docs/TRUST.md an item of a list that begins with links to laws, '- [`LAW`](PLACE), ..: ', has
behind its colon the first paragraph of the first law's doc comment, and each link has the law's
line. A row of a table that begins '| `CRATE::MODULE`, .. | N lines in M files |' has the size of the
definitions that the laws of these modules are made of (believed.py).

The page laws.md has all laws, crate by crate, and lies beside the pages of docs/.
"""
import os
import re
import textwrap

import believed
import laws
from checks import ROOT, files, read

ACCOUNT = "docs/TRUST.md"
PAGE = "laws.md"
WIDTH = 100
ITEM = re.compile(r"(?m)^- ((?:\[`[^`]+`\]\([^)\s]+/src/[^)\s]+\.rt#L\d+\)[, \n]*)+):"
                  r"(?: .*)?\n(?: {2}\S.*\n)*")
ROW = re.compile(r"(?m)^(\| [^|\n]*`rcu_\w+::[^|\n]*\| )[\d,]+ lines in \d+ files?(?= \|)")
HEAD = """# Laws

For auditors. All laws of the crates, in the order in which the crates build on each other. Each law
is a function whose contract is proved of the definitions alone. *Kept by* names the calls whose
contracts carry it to the code. [TRUST.md](TRUST.md) has the laws that users rely on.
"""


def item(text):
    """An item of a list."""
    return textwrap.fill(text, WIDTH, initial_indent="- ", subsequent_indent="  ",
                         break_long_words=False, break_on_hyphens=False) + "\n"


def size_of(own):
    """How long the definitions are that these laws are made of, in words."""
    lines, count = believed.size_of(believed.definitions_behind(own))
    return f"{lines:,} lines in {count} file{'s' * (count != 1)}"


def first_law(links):
    """The crate and the path of the first law that these links lead to, or None."""
    name, path, _ = laws.TO_LINE.search(links).groups()[:3]
    crate = re.search(r"crates/(\w+)/", path)[1]
    return next(((crate, it) for it, (file, _) in laws.laws_of(crate).items()
                 if path.endswith(file) and it.endswith(f"::{name.split('::')[-1]}")), None)


def with_words(found):
    """An item of the account, as it is to be: with the first law's words."""
    law = first_law(found[1])
    return item(f"{' '.join(found[1].split())}: {laws.words_of(*law)[0]}") if law else found[0]


def places_in(module):
    """The file and the name of each law of a module, as rcu_core::laws."""
    crate, _, path = module.partition("::")
    return [(file, law.split("::")[-1]) for law, (file, _) in laws.laws_of(crate).items()
            if law.rpartition("::")[0] == path]


def with_size(row):
    """A row of a table, with the size of what the laws of its modules are made of."""
    own = [it for module in re.findall(r"`([^`]+)`", row[1]) for it in places_in(module)]
    return row[1] + size_of(own)


def account(page):
    """The account as it is to be."""
    return ROW.sub(with_size, ITEM.sub(with_words, laws.renumbered(page)))


def purpose(crate):
    """What a crate is for, by the head of its lib.rt."""
    head = re.match(r"(?://! ?.*\n)+", read(f"crates/{crate}/src/lib.rt"))[0]
    text = " ".join(re.sub(r"(?m)^//! ?", "", head).split())
    return re.split(r"(?<=[.:]) (?=[A-Z])", text)[0]


def crates_in_order():
    listed = re.findall(r"(?m)^(rcu_\w+)", read("crates.txt"))
    return [it for it in listed if laws.laws_of(it) and f"crates/{it}/src/lib.rt" in files()]


def row_of(crate, name, calls):
    path, line = laws.place_of(crate, name)
    kept = f" Kept by {', '.join(f'`{it}`' for it in calls)}." if calls else ""
    words = " ".join(laws.words_of(crate, name))
    return item(f"[`{name}`]({os.path.join('..', path)}#L{line}): {words}{kept}")


def section(crate):
    """The part of a crate: its laws, and the names of the definitions that they are made of."""
    own, kept = laws.laws_of(crate), laws.kept_by().get(crate, {})
    # (those of the definitions last)
    rows = "".join(row_of(crate, it, kept.get(it, ()))
                   for it in sorted(own, key=laws.is_of_definitions))
    places = [(path, it.split("::")[-1]) for it, (path, _) in own.items()]
    of_file = {}
    for path, name in sorted(believed.definitions_behind(places)):
        of_file.setdefault(path.removeprefix("crates/"), []).append(f"`{name}`")
    made = "; ".join(f"{', '.join(names)} of `{path}`" for path, names in of_file.items())
    made = textwrap.fill(f"Made of {size_of(places)}: {made}.", WIDTH, break_on_hyphens=False)
    return f"\n## `{crate}`\n\n{purpose(crate)}\n\n{rows}\n{made}\n"


def written():
    """The page of all laws."""
    return HEAD + "".join(map(section, crates_in_order()))
