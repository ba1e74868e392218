"""The doc comments and signatures of the crates, for tools/write_calls."""
import re

from checks import files, read

BLOCK = re.compile(r"(?ms)^((?:pub )?(?:impl|trait)\b.*?) ?\{$.*?^\}")
# A function: its doc comment, and its head up to its clauses, its body or its end.
FUNCTION = re.compile(r"((?:^ *///.*\n)*)(?:^ *#\[.*\n)*"
                      r"^ *((pub )?(?:const )?(?:extern \"C\" )?fn (\w+)(?s:.*?))"
                      r"(?= \{$| ?;$|\n\s*(?:requires|ensures|decreases|ghost|\{))", re.MULTILINE)


class Call:
    """A function: the head of its type's or trait's block (or none), its name, its signature in one
    line, and the paragraphs of its doc comment, each in one line."""

    def __init__(self, within, name, signature, paragraphs):
        self.within, self.name = within, name
        self.signature, self.paragraphs = signature, paragraphs

    def parts(self):
        """The signature up to its parameters, these, and what stands behind them."""
        text, depth, cuts = self.signature, 0, []
        for at, sign in enumerate(text):
            if sign in ")]" or (sign == ">" and text[at - 1] != "-"):
                depth -= 1
            if sign in "(,)" and depth == int(sign == "," and bool(cuts)) and (cuts or sign == "("):
                cuts.append(at)
            if sign == ")" and not depth:
                break
            depth += sign in "(<["
        inside = [text[here + 1 : there].strip() for here, there in zip(cuts, cuts[1:])]
        return text[: cuts[0]], [it for it in inside if it], text[cuts[-1] + 1 :]

    def parameters(self):
        """Each parameter's name and type."""
        return [it.split(": ", 1) for it in self.parts()[1]]

    def result(self):
        """The type that it returns, or none."""
        return self.parts()[2].removeprefix(" -> ") or None


def paragraphs(lines):
    """The paragraphs of these lines of a comment."""
    text = "\n".join(re.sub(r"^\s*//[/!] ?", "", it).strip() for it in lines)
    return [" ".join(it.split()) for it in re.split(r"\n\n+", text) if it.strip()]


def head_of_block(text):
    """A head as the page has it: of an impl without its parameters."""
    kind = "trait" if re.match(r"(?:pub )?trait\b", text) else "impl"
    head = re.sub(r"^(?:pub )?(?:impl|trait)\b|//.*", "", text)
    while "<" in head:
        head = re.sub(r"<[^<>]*>", "", head.replace("->", ""))
    return f"{kind} {re.search('[A-Za-z0-9_]+', head)[0]}"


def calls_in(text):
    """The public functions of a file, in order."""
    blocks = [(it.span(), head_of_block(it[1])) for it in BLOCK.finditer(text)]
    for doc, signature, is_public, name, start in (
            (*it.groups(), it.start(2)) for it in FUNCTION.finditer(text)):
        within = next((head for (first, end), head in blocks if first < start < end), None)
        if is_public or (within or "").startswith("trait"):
            line = " ".join(signature.split()).removeprefix("pub ")
            line = re.sub(r",? \)", ")", line.replace("( ", "("))
            yield Call(within, name, line, paragraphs(doc.splitlines()))


def files_of(crate):
    """The files of a crate's code, but for tests."""
    return [it for it in files() if re.fullmatch(rf"crates/{crate}/src/(?!.*tests\.rt).*\.rt", it)]


def head_of(path):
    """The paragraphs that a file begins with."""
    return paragraphs([it for it in read(path).splitlines() if it.startswith("//!")])


def variants(kind):
    """The doc comment of each variant of an enum of the crates."""
    for path in files_of(r"\w+"):
        body = re.search(rf"(?ms)\bpub enum {kind} \{{\n(.*?)^\}}", read(path))
        if body:
            found = re.findall(r"((?: *///.*\n)+)(?: *#.*\n)*    (\w+)", body[1])
            return {name: paragraphs(doc.splitlines())[0] for doc, name in found}
    return {}
