"""The edits of the crates, as texts: those of wrong/, harmless/ and must-fail/.

A file wrong/PATH.edits has the edits of src/PATH.rt: in its first line 'file: src/PATH.rt', and for
each edit a heading, '# MEANING', above its lines. So has a file harmless/PATH.edits. A file
MEANING.edit is one edit, whose own line says in which file it is.
"""
import os
import re
from collections import namedtuple

from checks import files, read

FILE = re.compile(r"crates/(\w+)/(wrong|harmless|must-fail)/(.*)\.(edits?)")
HEADING = re.compile(r"(?m)^# (\w+)\n")
# What a line of an edit begins with, and in a file of several one of its first line alone.
LINE = re.compile(r"(?:promise|breaks|old): |new:")
FILE_LINE = re.compile(r"file: \S")

# The folder is wrong, harmless or must-fail; the text has the line of the file too.
EditText = namedtuple("EditText", "crate folder name text")


def edits_in(path):
    """The edits of a file of the repository; none where it is no file of edits."""
    found = FILE.fullmatch(path)
    if not found:
        return
    crate, folder, name, kind = found.groups()
    if kind == "edit":
        yield EditText(crate, folder, name, read(path))
        return
    head, *parts = HEADING.split(read(path))
    for meaning, lines in zip(parts[::2], parts[1::2]):
        yield EditText(crate, folder, meaning, f"{head}{lines}")


def every_edit():
    """Each edit of the repository."""
    for path in files():
        yield from edits_in(path)


def misread_lines(path):
    """The lines of a file of edits that are not as they have to be: a row for each."""
    _, folder, name, kind = FILE.fullmatch(path).groups()
    lines = read(path).splitlines()
    if kind == "edits":
        of = f"file: src/{name}.rt"
        if folder == "must-fail" or lines[:1] != [of]:
            yield f"{path}: its first line is not '{of}'"
        lines = [it for it in lines[1:] if it and not HEADING.fullmatch(f"{it}\n")]
    for line in lines:
        if not LINE.match(line) and not (kind == "edit" and FILE_LINE.match(line)):
            yield f"{path}: no line of an edit begins so: {line}"


def is_of_edits(path):
    return bool(FILE.fullmatch(path))


def named_twice():
    """The edits whose crate has another one of their name."""
    seen = set()
    for it in every_edit():
        if (it.crate, it.name) in seen:
            yield f"crates/{it.crate} has two edits that are named {it.name}"
        seen.add((it.crate, it.name))
