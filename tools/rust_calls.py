"""The calls of rcu_c as bindings/rcu-sys/src/lib.rs has them, for tools/write_calls."""
import textwrap

import c_calls

SAFETY = ["# Safety", "As the header says."]


def doc(paragraphs, indent=""):
    rows = []
    for text in paragraphs:
        rows += ["", *textwrap.wrap(text, c_calls.WIDTH - len(indent) - 4, break_on_hyphens=False)]
    return [f"{indent}/// {it}".rstrip() for it in rows[1:]]


def head(indent, start, parameters, result, tail):
    """The head of a function, as rustfmt lays it out."""
    result = f" -> {result}" if result else ""
    line = f"{indent}{start}({', '.join(parameters)}){result}{tail}"
    if len(line) <= c_calls.WIDTH:
        return [line]
    return [f"{indent}{start}(", *(f"{indent}    {it}," for it in parameters),
            f"{indent}){result}{tail}"]


def struct(library, name, words, fields):
    is_handle = any("*mut" in kind for _, kind, _ in fields)
    rows = [*doc([words]), "#[repr(C)]"]
    if not is_handle:
        rows.append("#[derive(Clone, Copy, Debug, Default, PartialEq, Eq)]")
    rows.append(f"pub struct {name} {{")
    for at, kind, its in fields:
        rows += [*(doc([its], "    ") if its else []), f"    pub {at}: {library.in_rust(kind)},"]
    return "\n".join([*rows, "}"])


def constants(words, values):
    rows = [f"// {words}"]
    for name, number, its in values:
        its = its[0].upper() + its[1:] + "."
        rows += [*doc([its]), f"pub const {name}: u32 = {number};"]
    return "\n".join(rows)


def parameters(library, call):
    return [f"{name}: {library.in_rust(kind)}" for name, kind in library.parameters(call)]


def extern(library):
    rows = ['extern "C" {']
    for call in library.calls():
        result = call.result() and library.in_rust(call.result())
        rows += doc(call.paragraphs, "    ")
        rows += head("    ", f"pub fn {call.name}", parameters(library, call), result, ";")
    return "\n".join([*rows, "}"])


def fenced(library, call):
    """The function of the plain name around an export, which makes the fence."""
    fence, name = c_calls.Fence(call), call.name.removesuffix(c_calls.UNFENCED)
    given = f"{call.name}({', '.join(at for at, _ in library.parameters(call))})"
    rows = ["fence(SeqCst);"] * fence.before
    if fence.changed:
        rows.append(f"let last = *{fence.changed[1]};")
    if fence.behind:
        test = fence.condition()
        behind = [f"if {test} {{", "    fence(SeqCst);", "}"] if test else ["fence(SeqCst);"]
        rows += [f"let result = {given};", *behind, "result"]
    else:
        rows.append(given)
    result = library.in_rust(call.result())
    return "\n".join([*doc(call.paragraphs + SAFETY),
                      *head("", f"pub unsafe fn {name}", parameters(library, call), result, " {"),
                      *(f"    {it}" for it in rows), "}"])


def types(library):
    faults = [(name, number, words) for number, name, words in library.faults()]
    enums = [("Why a call is refused.", faults), *(it[1:] for _, it in library.enums)]
    return "\n\n".join([*(struct(library, *it) for _, it in library.structs),
                        *(constants(*it) for it in enums)])


def calls(library):
    around = [it for it in library.calls() if it.name.endswith(c_calls.UNFENCED)]
    return "\n\n".join([extern(library), *(fenced(library, it) for it in around)])
