"""The functions of a crate, by the names that a check prints, as its files have them."""
import functools
import os
import re

from toolchain import rtlib

VISIBLE = r"(?:pub(?:\([a-z ]+\))? )?"
HEAD = re.compile(rf" *{VISIBLE}(?:const )?(?:unsafe )?(?:extern \"C\" )?fn (\w+)")
TYPE = re.compile(rf"^{VISIBLE}(?:struct|enum) (\w+)(?:<(.*?)>(?= *[({{;]| where))?",
                  re.MULTILINE | re.DOTALL)
BLOCK = re.compile(rf" *{VISIBLE}(?:unsafe )?((?:impl\b|trait |mod \w+ \{{).*)")


class Function:
    """A function of a crate: its name as a check prints it, its lines, its text, and whether it is
    of a trait."""

    def __init__(self, path, first, last, text, is_of_trait):
        self.path, self.first, self.last, self.text = path, first, last, text
        self.is_of_trait = is_of_trait


def lines_of_body(lines, first):
    """The line on which the body opens of the item that begins on the first one, or nothing where it
    has none of several lines, and the line on which the item ends, as rt fmt lays them out."""
    indent = re.match(" *", lines[first])[0]
    body, open_braces = None, 0
    for number in range(first, len(lines)):
        line = lines[number]
        if line in (indent + "}", indent + "{}") or (number == first and line.endswith("}")):
            return body, number
        goes_on = line.startswith((indent + ")", indent + ">"))
        opens = line.endswith(" {") and (number == first or goes_on)
        if body is None and (opens or line == indent + "{"):
            body = number
        # (a clause has a semicolon for each field of its records)
        open_braces += line.count("{") - line.count("}")
        if line.endswith(";") and body is None and not open_braces:
            return None, number
    return body, len(lines) - 1


def without_arguments(text):
    """The text without what stands in angle brackets."""
    before = None
    while text != before:
        text, before = re.sub(r"<[^<>]*>", "", text), text
    return text


def block_name(head, counts):
    """The name that a check gives a block: of an impl the type and the trait, each with arguments.
    (`counts`: how many arguments each type takes.)"""
    if not head.startswith("impl"):
        return re.match(r"(?:trait|mod) (\w+)", head)[1]
    head = head.partition("{")[0].partition(" where ")[0].replace("->", "").strip()
    bare = without_arguments(head)
    trait, _, kind = bare.removeprefix("impl").strip().rpartition(" for ")
    kind = re.findall(r"\w+", kind)[-1]
    own = re.match(r"impl<((?:[^<>]|<(?:[^<>]|<[^<>]*>)*>)*)>", head)
    parameters = re.findall(r"(\w+)(?=\s*[:,]|$)", own[1]) if own else []
    arguments = re.findall(r"\w+", head.rpartition(kind)[2])
    # (arguments that are no parameters of the impl are a part of the name)
    concrete = [it[0].upper() + it[1:] for it in arguments if it not in parameters]
    if trait:
        trait = re.findall(r"\w+", trait)[-1]
        given = re.findall(r"\w+", head.rpartition(" for ")[0].rpartition(trait)[2])
        return "".join([kind, *concrete, trait, *(it for it in given if it not in parameters)])
    # (an alias, or a type some of whose arguments are left to their defaults)
    is_cut = arguments and counts.get(kind, 0) != len(arguments)
    return "+".join([kind, *arguments]) if concrete or is_cut else kind


def functions_in(text, module, types):
    """The functions of a file, without those of tests. A check names a type's own functions by the
    module that declares the type, in whichever file they stand, and those of an impl of certain
    arguments by the file's own module. (`types`: that module, and how many arguments it takes.)"""
    lines, blocks, found = text.split("\n"), [], []
    homes = {kind: home for kind, (home, _) in types.items()}
    counts = {kind: count for kind, (_, count) in types.items()}
    for number, line in enumerate(lines):
        block, head = BLOCK.match(line), HEAD.match(line)
        if not block and not head:
            continue
        _, last = lines_of_body(lines, number)
        if block:
            whole = " ".join([block[1], *lines[number + 1 : last + 1]])
            is_of_trait = block[1].startswith("trait") or " for " in whole.partition("{")[0]
            blocks.append((number, last, block_name(whole, counts), is_of_trait))
            continue
        around = [it for it in blocks if it[0] < number <= it[1]]
        home = homes.get(around[0][2], module) if around else module
        path = [*home, *(name for _, _, name, _ in around), head[1]]
        if "tests" not in path:
            whole = "\n".join(lines[number : last + 1])
            is_of_trait = any(it for _, _, _, it in around)
            found.append(Function("::".join(path), number, last, whole, is_of_trait))
    return found


@functools.lru_cache(maxsize=None)
def functions_of(crate):
    """The functions of each file of a crate's src/."""
    files, types = {}, {}
    for file in rtlib.files_of(crate.folder):
        path = os.path.relpath(file, crate.folder)
        if path.startswith("src/") and path.endswith(".rt"):
            names = path.removeprefix("src/").removesuffix(".rt").split("/")
            module = [it for it in names if it not in ("lib", "main")]
            files[path] = rtlib.text_of(file), module
            for kind, parameters in TYPE.findall(files[path][0]):
                types[kind] = module, len(re.findall(r"\w[^,]*", without_arguments(parameters)))
    return {path: functions_in(*of_file, types) for path, of_file in files.items()}


def has_proof_apart(crate, path, by_hand=True):
    """Whether the function is in one proof with others, or with closures, or proved by hand."""
    around, name = os.path.split(f"{crate.folder}/proofs/{path.replace('::', '/')}")
    beside = os.listdir(around) if os.path.isdir(around) else []
    is_with_others = any(it.startswith("+") and name in it.split("+") for it in beside)
    has_closures = os.path.isdir(f"{around}/fn/{name}")
    is_by_hand = by_hand and os.path.isfile(f"{around}/{name}/Proof.antt")
    return is_with_others or has_closures or is_by_hand


def proof_with_hole(crate, path):
    """The proof file of the function, and a text by which it is taken at its contract's word."""
    name = f"{path.rpartition('::')[2]}_spec"
    use = f"use Rattle.{crate.name}.proofs.{path.replace('::', '.')}.Statement.{{statement}}"
    text = f"{use}\n\npub {name} : {{M : Type 1}} → statement M\n{name} = ?\n"
    return f"proofs/{path.replace('::', '/')}/Proof.antt", text
