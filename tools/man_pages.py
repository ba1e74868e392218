"""The list of calls of docs/rcu.3, and a manual page for each call, for tools/write_calls."""
import os
import re

import c_calls
import laws
from checks import headers, read

# A function that the header alone has: its note, and its head.
OWN = re.compile(r"/\*((?:(?!\*/).)*?)\*/\n(?:#[^\n]*\n)*"
                 r"(static inline [\w *]+?(rcu_\w+)\([^;{]*\)) \{", re.DOTALL)


def plain(text):
    """A paragraph in the words of roff: what is of the program in bold."""
    text = text.replace("\\", "\\e").replace("-", "\\-")
    text = re.sub(r"`?\b(rcu_\w+)\b`?", r"\\fB\1\\fR", text)
    text = re.sub(r"`([^`]+)`", r"\\fI\1\\fR", text)
    return re.sub(r"(?<=[.:]) (?=[A-Z])", "\n", text)


def listed(library):
    """The calls as the overview lists them, under the head of each file."""
    for group in library.groups:
        yield f".SS {plain(re.split(r'[:.]', group.head[0])[0])}"
        for call in group.calls:
            name = call.name.removesuffix(c_calls.UNFENCED)
            yield f".TP\n.BR {name} (3)\n{c_calls.about(call.paragraphs)}"


def page(title, header, names, prototypes, paragraphs, faults):
    """The page of a call. `faults`: the name, number and words of each that it returns."""
    refused = [it for it in paragraphs if re.match(r"Faults?\b", it)]
    rows = [f".TH {names[0]} 3 {title}", ".SH NAME",
            f"{', '.join(names)} \\- {c_calls.about(paragraphs)}",
            ".SH SYNOPSIS", ".nf", f".B #include <{header.removeprefix('include/')}>", ".PP",
            *(f".B {it}" for it in prototypes),
            ".fi", ".SH DESCRIPTION", 
            "\n.PP\n".join(plain(it) for it in paragraphs if it not in refused)]
    if faults:
        rows += [".SH RETURN VALUE", "0, or the number of the first fault that holds.",
                 *map(plain, refused)]
        for name, number, words in faults:
            rows += [".TP", f"{name} ({number})", plain(words)]
    return "\n".join([*rows, ".SH SEE ALSO", ".BR rcu (3)", ""])


def pages(library, texts, overview):
    """Each page by the name of its file. `texts`: of each header."""
    kinds = {number: (name, number, words) for number, name, words in library.faults()}
    numbers = dict((name, number) for number, (name, _, _) in kinds.items())
    title = re.match(r"\.TH RCU 3 (.*)", overview)[1]
    for group in library.groups:
        for call in group.calls:
            name = call.name.removesuffix(c_calls.UNFENCED)
            names = list(dict.fromkeys([name, call.name]))
            faults = c_calls.faults_of(call)
            if c_calls.returns_fault(call):
                faults = [numbers["RCU_CLOSED"], numbers["RCU_OTHER_KIND"], *faults]
            rows = [c_calls.prototype(library, call, it).replace("\n", "\n.B ") for it in names]
            words = [*call.paragraphs, *group.head, *laws.note_of(name)]
            yield f"{name}.3", page(title, group.header, names, rows, words,
                                    [kinds[it] for it in faults])
            if call.name != name:
                yield f"{call.name}.3", f".so man3/{name}.3\n"
    fenced = {it.name.removesuffix(c_calls.UNFENCED) for it in library.calls()}
    own = [(header, *it) for header, text in texts.items() for it in OWN.findall(text)]
    for header, note, head, name in own:
        if name not in fenced:
            text = " ".join(re.sub(r"(?m)^ \* ?", "", note).split())
            head = " ".join(head.split()) + ";"
            yield f"{name}.3", page(title, header, [name], [head], [text], [])


def lay(library, folder):
    """Writes the pages into the folder."""
    overview = read("docs/rcu.3")
    for name, text in pages(library, {it: read(it) for it in headers()}, overview):
        with open(os.path.join(folder, name), "w", encoding="utf-8") as file:
            file.write(text)
