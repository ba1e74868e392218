"""Sentences that an RCU engineer would not write, for tools/form.

It reads the pages, the headers for C, whose notes are the doc comments of rcu_c, and the comments
of the crates: of code (src), definitions (specs) and proofs. Code is left out. A file may have as
many of them as tools/dialect_left says, and no more. Write those numbers anew if some are mended:
they only go down.

Use: tools/dialect.py            prints each, with its place and what is wrong
     tools/dialect.py --write    writes tools/dialect_left anew
"""
import collections
import os
import re
import sys

sys.dont_write_bytecode = True
sys.path.insert(0, os.path.dirname(os.path.realpath(__file__)))
from checks import ROOT, files, headers, read, write

LEFT = "tools/dialect_left"
FENCED = re.compile(r"(?ms)^```.*?^```$")
C_COMMENT = re.compile(r"(?s)/\*(.*?)\*/")
CRATE = re.compile(r"crates/\w+/(?:src|specs|proofs)/.*(\.rt|\.antt)")
# A line of a comment of code, and one of a definition or a proof: its marker and its words.
LINE_COMMENT = {".rt": re.compile(r"\s*(//[/!]?) ?(.*)"), ".antt": re.compile(r"\s*(--) ?(.*)")}
# The patterns, by what is wrong. A sentence begins at a capital letter behind a full stop, or with
# the text.
BEGIN = r"(?:(?<=[.!?] )|(?<=[.!?:]\n)|(?<=\n\n)|(?<=- )|\A)"
PATTERNS = {
    "a relative clause as the subject":
        re.compile(BEGIN + r"\**(?:Who|What|Whoever) [a-z][^?]*?[.:]"),
    "'is told' or 'tells'": re.compile(r"\b(?:is|are|was|were|be) told\b|\btells\b"),
    "'stands' for 'is'": re.compile(r"\bstands?\b(?! for)"),
    "'where' for 'if'": re.compile(BEGIN + r"\**Where (?!to\b)|[,;:] where (?:it|one|a|an|no|the)\b"),
    "'so many', 'so few'": re.compile(r"\bso (?:many|few)\b"),
    "a sentence that is only 'whether' or 'that'":
        re.compile(BEGIN + r"(?:Whether|That) [^.?]*\.(?=\s|\Z)"),
}
# Those for comments alone.
IN_COMMENTS = {
    "'where' for 'if'":
        re.compile(r"(?<!stays )\bwhere (?:it|one|none|nobody|no|all|each|that|there)\b"),
    "'nobody', 'somebody'": re.compile(r"\b(?:[Nn]obody|[Ss]omebody)\b"),
    "a noun for 'when it was taken', 'queued' or 'made'":
        re.compile(r"\b(?:at|since|of) (?:its|their) (?:taking|queueing|making)\b"),
}


def without_code(text):
    return re.sub(r"`[^`\n]*`", "code", FENCED.sub("", text))


def comments(text, comment):
    """The comments of such lines, each a paragraph that begins with a capital letter."""
    paragraphs, before = [], None
    for line in text.splitlines():
        marker, words = comment.fullmatch(line).groups() if comment.fullmatch(line) else (None, "")
        if words and marker == before:
            paragraphs[-1] += "\n" + words
        elif words:
            paragraphs.append(words[0].upper() + words[1:])
        before = marker if words else None
    return "\n\n".join(paragraphs)


def prose(path):
    """The text of a file that is read as English."""
    text, crate = read(path), CRATE.fullmatch(path)
    if crate:
        return without_code(comments(text, LINE_COMMENT[crate[1]]))
    if path.endswith(".md"):
        return without_code(text)
    return "\n\n".join(re.sub(r"\n \* ?", "\n", it) for it in C_COMMENT.findall(text))


def is_read(path):
    return path.endswith(".md") or path in headers() or CRATE.fullmatch(path)


def found():
    """Each such sentence: the file, what is wrong, and the words."""
    for path in filter(is_read, files()):
        text = prose(path)
        own = IN_COMMENTS if CRATE.fullmatch(path) else {}
        for what, pattern in [*PATTERNS.items(), *own.items()]:
            for it in pattern.finditer(text):
                at = text[max(0, it.start() - 20):it.end() + 30]
                yield path, what, " ".join(at.split())[:100]


def counts():
    return collections.Counter(path for path, _, _ in found())


def sentences_of_the_dialect():
    """The files that have more of them than is allowed."""
    allowed = {path: int(count) for path, count in
               (it.split() for it in read(LEFT).splitlines())}
    now = counts()
    for path in sorted(set(now) | set(allowed)):
        here, most = now[path], allowed.get(path, 0)
        if here > most:
            yield f"{path}: {here} sentences are not in the field's English, and {most} are " \
                  "allowed (tools/dialect.py shows them)"


if __name__ == "__main__":
    if sys.argv[1:] == ["--write"]:
        write(os.path.join(ROOT, LEFT),
              "".join(f"{path} {count}\n" for path, count in sorted(counts().items())))
    else:
        for place, what, words in found():
            print(f"{place}: {what}: {words}")
