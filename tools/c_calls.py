"""The calls of rcu_c as C and Rust have them, for tools/write_calls: the headers of include/,
bindings/rcu-sys/src/lib.rs, and a manual page for each call."""
import re
import textwrap

import doc_comments as source
import laws
from checks import headers, read

WIDTH = 100
PLAIN = {"u8": "unsigned char", "u32": "uint32_t", "u64": "uint64_t", "usize": "size_t",
         "i32": "int", "bool": "bool"}
UNFENCED = "_unfenced"
# The header that has a call or a type, where no doc comment names another one.
HEADER = "include/rcu.h"
REFUSALS = "crates/rcu_c/src/refusal.rt"
# A function that gives each value of an enum its number in C.
HEADER_NAMED = re.compile(r"Header: `([\w/]+\.h)`\.$")
ENUM = r"((?:///.*\n)+)(?:pub\(crate\) )?fn (\w+)\(\w+: (\w+)\)"


def place_in(header, words):
    """Where these words stand in the header as it is, or behind it."""
    place = header.find(words)
    return place if place >= 0 else len(header)


def upper(name):
    """A name of Rattle's as a constant of C has it."""
    return re.sub(r"(?<!^)(?=[A-Z])", "_", name).upper()


def sentence(text):
    """The words of a doc comment as a part of a sentence."""
    text = text.removesuffix(".")
    text = re.sub(r"`(rcu_\w+)`", r"\1", text)
    return text if text[1:2].isupper() else text[0].lower() + text[1:]


class Group:
    """The calls of a file that a header has, and the paragraphs of the file's head."""

    def __init__(self, header, head, calls):
        self.header, self.head, self.calls = header, head, calls


class Library:
    """What rcu_c exports: its calls by file, the structs and enums of each header, and its faults."""

    def __init__(self):
        self.files = {it: read(it) for it in source.files_of("rcu_c")}
        code, known = "".join(self.files.values()), "".join(map(read, headers()))
        self.types = {name: kind for kind, name in re.findall(
            r"\(`(rcu_(?:\w+_)?t)`\).*\n(?:///.*\n)*(?:#.*\n)*pub (?:type|struct) (\w+)", code)}
        groups, structs, enums = [], [], []
        for path, text in self.files.items():
            head = source.head_of(path)
            of_file = named_header(head) or HEADER
            groups += self.groups_in(path, head, of_file)
            structs += [(of_file, it) for it in self.structs_in(text, code)]
            enums += [(of_file, it) for it in self.enums_in(text)]
        self.groups = sorted(groups, key=lambda it: min(
            place_in(known, f" {call.name}(") for call in it.calls))
        self.structs = sorted(structs, key=lambda it: place_in(known, f"}} {it[1][0]};"))
        self.enums = sorted(enums, key=lambda it: place_in(known, f"enum {it[1][0]} "))

    def groups_in(self, path, head, of_file):
        """The calls of a file, by the headers that have them."""
        own, head = {}, [it for it in head if not HEADER_NAMED.match(it)]
        for call in self.exports(path):
            header = named_header(call.paragraphs) or of_file
            call.paragraphs = [it for it in call.paragraphs if not HEADER_NAMED.match(it)]
            own.setdefault(header, []).append(call)
        return [Group(header, head, calls) for header, calls in own.items()]

    def exports(self, path):
        names = re.findall(r"no_mangle\)\]\n(?:pub )?extern \"C\" fn (\w+)", self.files[path])
        return [it for it in source.calls_in(self.files[path]) if it.name in names]

    def calls(self):
        return [call for group in self.groups for call in group.calls]

    def structs_in(self, text, code):
        """Each struct: its name in C, what it is, and its fields with their types and words."""
        shape = r"((?:///.*\n)+)(?:#.*\n)*pub (?:struct (\w+) \{|type (\w+) = (\w+);)"
        for doc, name, alias, of in re.findall(shape, text):
            if (name or alias) in self.types:
                body = body_of(rf"pub struct {of or name}", code)
                fields = re.findall(r"((?: +///.*\n)*) +(?:pub )?(\w+): ([\w* ]+),\n", body)
                yield (self.types[name or alias], re.sub(r" \(`\w+`\)", "", words_of(doc)),
                       [(at, kind, words_of(its)) for its, at, kind in fields if kind != "Global"])

    def enums_in(self, text):
        """Each enum of C: its name, its words, and the number and words of each of its values."""
        for doc, name, kind in re.findall(ENUM, text):
            body = body_of(rf"(?:pub\(crate\) )?fn {name}", text)
            said = re.search(r"`(rcu_\w+)`, as `(RCU_\w+)`", words_of(doc))
            arms = re.findall(rf"{kind}::(\w+)(?:\(.*?\))? => \(?(\d+)", body)
            if said:
                prefix = next(said[2].removesuffix(upper(it)) for it, _ in arms
                              if said[2].endswith(upper(it)))
                words = source.variants(kind)
                if {it for it, _ in arms} != set(words):
                    raise ValueError(f"{name} does not give each {kind} a number of its own")
                yield said[1], words_of(doc).partition(", as C sees it")[0] + ".", [
                    (prefix + upper(it), int(number), sentence(words[it])) for it, number in arms]

    def faults(self):
        """The faults that some call lists, and those of C alone: number, name and sentence."""
        listed = {number for call in self.calls() for number in faults_of(call)}
        text = read("crates/rcu_seq/src/fault.rt")
        for words, name, number in re.findall(r'#\[error\("(.*?)"\)\]\n    (\w+) = (\d+)', text):
            if int(number) in listed:
                yield int(number), f"RCU_{upper(name)}", words
        words = source.variants("Refusal")
        for name, number in re.findall(r"Refusal::(\w+) => (\d+)", self.files[REFUSALS]):
            yield int(number), f"RCU_{upper(name)}", sentence(words[name])

    def in_rust(self, kind):
        """A type of a parameter, a field or a result as Rust's own side has it."""
        star = re.fullmatch(r"(&mut |\*mut |&)\[?(\w+)\]?", kind)
        kind = star[2] if star else kind
        star = star and ("*const " if star[1] == "&" else "*mut ")
        return (star or "") + self.types.get(kind, kind)

    def in_c(self, name, kind):
        """A parameter or a field in C."""
        kind = self.in_rust(kind)
        star, _, kind = kind.rpartition(" ")
        const = "const " if star == "*const" else ""
        return f"{const}{PLAIN.get(kind, kind)} {star[:1]}{name}"

    def parameters(self, call):
        """Each parameter and its type. An allocator takes no place in C, and a slice takes two."""
        for name, kind in call.parameters():
            if kind != "Global":
                yield name, kind
            if kind.startswith(("&mut [", "&[")):
                yield "room" if "mut" in kind else "length", "usize"


def named_header(paragraphs):
    """The header that a paragraph names, or none."""
    found = [it[1] for it in map(HEADER_NAMED.match, paragraphs) if it]
    return f"include/{found[0]}" if found else None


def body_of(head, code):
    """What stands between the braces behind a head that matches, as rt fmt lays them out."""
    return re.search(rf"{head}\b.*?\{{\n(.*?)^\}}", code, re.DOTALL | re.MULTILINE)[1]


def words_of(doc):
    return " ".join(source.paragraphs(doc.splitlines()))


def faults_of(call):
    """The numbers of the faults of a call, in the order in which its doc comment lists them."""
    for text in call.paragraphs:
        if one := re.match(r"Fault (\d+):", text):
            return [int(one[1])]
        if text.startswith("Faults: "):
            parts = re.split(r"[;.] ?", text.removeprefix("Faults: "))
            return [int(it[0]) for it in (re.match(r"\d+\b", part) for part in parts) if it]
    return []


def about(paragraphs):
    """What a call does, in a few words."""
    text = re.split(r"[.:](?: |$)|, (?=by|at|and|which)", paragraphs[0])[0].replace("`", "")
    return text[0].lower() + text[1:]


def returns_fault(call):
    """Whether it returns 0 or a fault: that of a handle, where its doc comment lists none."""
    places = [kind for _, kind in call.parameters() if kind.startswith("&mut ")]
    return bool(faults_of(call)) or (call.result() == "u32" and len(places) > 1)


class Fence:
    """Where the fence stands: before the export, behind it, or behind it where this holds."""

    def __init__(self, call):
        said = [it for it in call.paragraphs if it.startswith("Fence: ")]
        if bool(said) != call.name.endswith(UNFENCED):
            raise ValueError(f"{call.name}: a paragraph 'Fence: ..' and a name with {UNFENCED} go "
                             "together")
        text = said[0] if said else ""
        self.before, self.behind = "before" in text, "behind" in text
        self.changed = re.search(r"if `(\w+)` changed", text)
        self.is_true = "if it returns true" in text

    def condition(self):
        """What has to hold for the fence behind, in words that are both C's and Rust's."""
        if self.changed:
            return f"*{self.changed[1]} != last"
        return "result" if self.is_true else ""


def filled(head, parameters, tail):
    """A head with its parameters, over several lines where one is too short."""
    words = [f"{head}(", *parameters]
    text = ", ".join(it.replace(" ", "\0") for it in words).replace("(, ", "(", 1) + f"){tail}"
    indent = " " * (len(head) + 1)
    return textwrap.fill(text.replace(") {", ")\0{"), WIDTH, subsequent_indent=indent,
                         break_long_words=False).replace("\0", " ")


def note(paragraphs, first="/* "):
    """The paragraphs as one comment."""
    rows = []
    for text in [*paragraphs[:-1], paragraphs[-1] + "\0*/"]:
        rows += textwrap.wrap(re.sub(r"`(rcu_\w+)`", r"\1", text), WIDTH,
                              initial_indent=" * " if rows else first, subsequent_indent=" * ",
                              break_on_hyphens=False, break_long_words=False)
    return "\n".join(rows).replace("\0", " ")


def with_words(rows, words):
    """The rows, each with words of its own behind it, which begin in one column."""
    width = max(map(len, rows))
    for row, its in zip(rows, words):
        lines = textwrap.wrap(its and its + " */", WIDTH - width - 4)
        for at, line in enumerate(lines):
            yield f"{row:{width}} /* {line}" if not at else f"{'':{width}}  * {line}"
        if not its:
            yield row


def enum_in_c(name, words, values):
    ends = ["," if it is not values[-1] else "" for it in values]
    rows = [f"    {at} = {number}{end}" for (at, number, _), end in zip(values, ends)]
    rows = with_words(rows, [it[2] for it in values])
    return "\n".join([note([words]), f"enum {name} {{", *rows, "};"])


def struct_in_c(library, name, words, fields):
    rows = [f"    {library.in_c(at, kind)};" for at, kind, _ in fields]
    rows = with_words(rows, [it[2] and sentence(it[2]) for it in fields])
    tag = name.removesuffix("_t")
    return "\n".join([note([words]), f"typedef struct {tag} {{", *rows, f"}} {name};"])


def faults_in_c(library):
    """The faults of all calls, and their sentences."""
    faults = [(name, number, words) for number, name, words in library.faults()]
    cases = [f'    case {name}: return "{words}";' for name, _, words in faults]
    text = [note(["A sentence for a fault, without a full stop. At 0 it says that there is none."]),
            "static inline const char *rcu_fault_text(uint32_t fault) {", "    switch (fault) {",
            '    case 0: return "no fault";', *cases,
            '    default: return "no fault has this number";', "    }", "}"]
    return [enum_in_c("rcu_fault", "Why a call is refused.", faults), "\n".join(text)]


def types_in_c(library, header):
    """The part of a header above its calls."""
    return "\n\n".join([
        *(faults_in_c(library) if header == HEADER else ()),
        *(enum_in_c(*it) for of, it in library.enums if of == header),
        *(struct_in_c(library, *it) for of, it in library.structs if of == header)])


def prototype(library, call, name, static=False):
    """A call as C declares it, under this name."""
    kind = PLAIN.get(library.in_rust(call.result() or "void"), "void")
    parameters = [library.in_c(*it) for it in library.parameters(call)]
    head = f"{'static inline ' * static}{kind} {name}"
    return filled(head, parameters or ["void"], " {" if static else ";")


def fenced_in_c(library, call):
    """The header's function around an export, which makes the fence."""
    fence, name = Fence(call), call.name.removesuffix(UNFENCED)
    kinds = dict(library.parameters(call))
    given = f"{call.name}({', '.join(kinds)})"
    rows = ["rcu_fence();"] * fence.before
    if fence.changed:
        kind = library.in_c("last", kinds[fence.changed[1]].removeprefix("&mut "))
        rows.append(f"{kind} = *{fence.changed[1]};")
    if fence.behind:
        test = f"if ({fence.condition()}) " if fence.condition() else ""
        rows += [f"{library.in_c('result', call.result())} = {given};", f"{test}rcu_fence();",
                 "return result;"]
    else:
        rows.append(f"return {given};")
    return "\n".join([prototype(library, call, name, True), *(f"    {it}" for it in rows), "}"])


def call_in_c(library, call):
    """A call with its note; behind one that the header fences stands its function."""
    words = [*call.paragraphs, *laws.note_of(call.name)]
    rows, fence = [note(words), prototype(library, call, call.name)], Fence(call)
    if fence.before or fence.behind:
        rows.append(fenced_in_c(library, call))
    return "\n".join(rows)


def group_in_c(library, group):
    title, *more = group.head
    title = sentence(title) if title.count(". ") == 0 else title[0].lower() + title[1:]
    return "\n\n".join([note([title, *more], "/* ---- "),
                        *(call_in_c(library, it) for it in group.calls)])


def calls_in_c(library, header):
    """The part of a header that has its calls."""
    groups = [it for it in library.groups if it.header == header]
    fenced = [call.name.removesuffix(UNFENCED) for it in groups for call in it.calls
              if call.name.endswith(UNFENCED)]
    fences = [note([f"The calls that make a full fence: {', '.join(fenced)}."])] if fenced else []
    return "\n\n".join([*fences, *(group_in_c(library, it) for it in groups)])
