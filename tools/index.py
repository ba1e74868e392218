"""The page names.md of a release, for tools/write_calls: each call of C, type, law and fault, with a
link to its page. It lies beside the pages of docs/.

Names of C are those of include/*.h; types of Rattle those that calls.md has (api_page.py); laws
those of laws.md (account.py); faults those of docs/SCRIPTS.md.
"""
import re
import textwrap

import account
import api_page
from checks import files, read
from laws import laws_of

PAGE = "names.md"
HEAD = "# Names\n\nEach call of C, law, type of Rattle and fault, with a link to the page that says more.\n"
C_CALL = re.compile(r"(?m)^(?:static inline )?[\w ]+?\*?\b(rcu_\w+)\([^;{]*[;{]")


def sources(pattern):
    return [read(it) for it in files() if re.fullmatch(pattern, it)]


def names_of_c():
    for path in (it for it in files() if re.fullmatch(r"include/.*\.h", it)):
        for name in C_CALL.findall(re.sub(r"(?s)/\*.*?\*/", "", read(path))):
            if not name.endswith("_unfenced") and name != "rcu_fence":
                yield name, f"../{path}"


def names_of_rattle():
    for crate, its in api_page.parts().items():
        code = "".join(sources(rf"crates/{crate}/src/.*\.rt"))
        for name in re.findall(r"(?m)^pub (?:struct|enum|trait) (\w+)", code):
            if re.search(rf"\b{name}\b", its):
                yield name, f"{api_page.PAGE}#{crate}"


def names_of_laws():
    for crate in account.crates_in_order():
        yield from ((it.split("::")[-1], f"{account.PAGE}#{crate}") for it in laws_of(crate))


def written():
    """The page."""
    text, places = HEAD, {}
    faults = re.findall(r"(?m)^- \*\*(\d+)\*\*, (\w+):", read("docs/SCRIPTS.md"))
    groups = {"Calls of C": names_of_c(), "Laws": names_of_laws(),
              "Types of Rattle": names_of_rattle()}
    rows = [(title, sorted(set(its), key=lambda it: (it[0].lower(), it)))
            for title, its in groups.items()]
    rows.append(("Faults", [(" ".join(it), "SCRIPTS.md#faults") for it in faults]))
    for title, its in rows:
        names = [f"[`{name}`][{places.setdefault(place, len(places) + 1)}]" for name, place in its]
        lines = textwrap.fill(", ".join(it.replace(" ", "\0") for it in names), 100,
                              break_long_words=False, break_on_hyphens=False)
        text += f"\n## {title}\n\n{lines.replace(chr(0), ' ')}.\n"
    return text + "\n" + "".join(f"[{label}]: {place}\n" for place, label in places.items())
