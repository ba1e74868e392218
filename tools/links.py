"""What the pages lead to, and the lines of files that they show, for tools/names.

A page is a file '.md' of the repository. A link is relative: '[words](PATH#HEADING)', or '[words]'
with a line '[words]: PATH#HEADING' at the page's end. A page that is named is a link; a heading
that is named behind it, as in '[C.md] ("The fences")', stands there. A block whose first line ends
in 'from FILE' has lines of that file, in their order; one that ends in a file of a folder examples
is that file. docs/README.md leads to each page.
"""
import os
import re

from checks import ROOT, files, read

INDEX = "docs/README.md"
FENCED = re.compile(r"(?ms)^```(.*?)\n(.*?)^```$")
CODE = re.compile(r"(?m)^ {4}.*$|`([^`\n]*)`")
MADE = re.compile(r"(?m)^\[([^\]]+)\]: (\S+)$")
LINK = re.compile(r"\[([^\[\]]+)\](?:\(([^)\s]+)\)|\[([^\]]+)\])?")
NAMED = re.compile(r"(?<![\w/])(?:[\w.]+/)*[A-Z]+\.md\b")
BEHIND = re.compile(r"\[(?:\w+/)*([A-Z]+\.md)\](?:,| \() ?\n? *\"([^\"]+)\"")


def pages():
    return [it for it in files() if it.endswith(".md")]


def plain(page):
    """A page's text without blocks, and with a word for code that names no page."""
    text = FENCED.sub("", read(page))
    return CODE.sub(lambda it: it[1] if it[1] and NAMED.fullmatch(it[1]) else "code", text)


def anchor(heading):
    """What a hosting site makes of a heading."""
    return re.sub(r"[^\w\- ]", "", heading.lower()).replace(" ", "-")


def links(page):
    """Where each link of a page leads to; None where its words have no line at the end."""
    text = plain(page)
    made = dict(MADE.findall(text))
    for words, path, name in LINK.findall(MADE.sub("", text)):
        words = " ".join(words.split())
        yield words, path or made.get(name or words)
    yield from made.items()


def lost_links():
    """The links that end nowhere."""
    for page in pages():
        for words, path in links(page):
            file, _, heading = (path or "").partition("#")
            file = os.path.normpath(os.path.join(os.path.dirname(page), file)) if file else page
            if path is None:
                yield f"{page}: [{words}] leads nowhere"
            elif "://" not in path and not os.path.exists(os.path.join(ROOT, file)):
                yield f"{page}: there is no {file}"
            elif heading and file.endswith(".md") and heading not in map(anchor, re.findall(r"(?m)^#+ (.+)$", read(file))):
                yield f"{page}: {file} has no heading {heading}"


def pages_named_with_no_link():
    """The pages that are named with no link, and the headings behind one that are not there."""
    for page in pages():
        text = plain(page)
        for name in NAMED.findall(LINK.sub("", MADE.sub("", text))):
            yield f"{page}: {name} is no link"
        for name, heading in BEHIND.findall(text):
            heading = " ".join(heading.split())
            there = read(next(it for it in pages() if os.path.basename(it) == name))
            lead = re.escape(heading)
            if not re.search(rf"(?m)^#+ {lead}$|\*\*{lead}\.?\*\*", there):
                yield f"{page}: {name} has nothing under {heading}"


def blocks_that_are_no_lines_of_their_file():
    for page in pages():
        for head, block in FENCED.findall(read(page)):
            _, is_part, file = head.partition(" from ")
            file = file or "".join(re.findall(r" ((?:bindings/\w+/)?examples/\S+)$", head))
            if not file:
                continue
            text = read(file)
            rows = (re.sub(r"^\s*(?://[/!])?\s*", "", it) for it in text.splitlines())
            for line in block.splitlines() if is_part else () if block == text else ["all of it"]:
                if line.strip() and line.strip() not in rows:
                    yield f"{page}: not in {file}, or not there: {line.strip()}"
                    break


def unlisted_pages():
    """The pages that the list of all pages does not lead to."""
    there = {os.path.normpath(os.path.join("docs", path.partition("#")[0]))
             for _, path in links(INDEX) if path}
    yield from (f"{INDEX}: no link to {it}" for it in pages() if it not in there | {INDEX})
