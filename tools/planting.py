"""The edits of the folders wrong/ and harmless/, and the texts in which they stand planted."""
import os
import re

from edits import every_edit
from functions import HEAD, functions_of, has_proof_apart, lines_of_body, proof_with_hole
from toolchain import rt, rtlib

# The body of a function that is taken at its contract's word: of any type, and soon read.
NO_CODE = "loop {}"
# What an edit breaks that is refused by no clause: what a call requires, an invariant, safety.
BODY = "body"


class Edit:
    """An edit of a function, or nothing in its place: what it changes in which file, and the name
    of the function by which it is judged. That is a twin of the one that it is in, where there can
    be one. Where the edit names clauses, its twin has these alone of those that begin with
    ensures. `why`: what is wrong with the edit."""

    def __init__(self, crate, name, text, is_harmless, is_made=True):
        self.crate, self.name, self.text = crate, name, text
        self.is_harmless, self.is_made = is_harmless, is_made
        self.is_alone, self.seconds = False, 0
        self.changes, self.added, self.is_twin, self.is_renamed = {}, {}, False, False
        # The function that it is in, and the one by which it is judged.
        self.of = self.function = None
        texts, self.why = rt.edited(text, crate.folder)
        if not self.why:
            self.why = self.plant(texts)

    def plant(self, texts):
        """Puts the change where it is judged. Returns why it cannot."""
        [(path, new), *more] = texts.items()
        text = rtlib.text_of(f"{self.crate.folder}/{path}")
        start, end, new = changed(text, new)
        first, last = text.count("\n", 0, start), text.count("\n", 0, max(start, end - 1))
        around = [it for it in functions_of(self.crate).get(path, [])
                  if it.first <= first and last <= it.last]
        if more or not around:
            return "it is not an edit of one function"
        self.of = around[-1]
        self.function = self.of.path
        labels = re.findall(r"(?m)^breaks: (\w+)$", self.text)
        twin = self.twin(path, text, (start, end, new), labels if self.is_made else [])
        if twin:
            self.is_twin, self.changes = True, {path: twin}
        elif self.is_made:
            self.changes = {path: (start, end, new)}
        return self.against_the_rule(labels)

    def twin(self, path, text, change, labels):
        """What adds a twin of the function with the change, behind it; or nothing, where a twin
        would have no proof of its own. Its proof files are noted."""
        if self.of.is_of_trait or has_proof_apart(self.crate, self.of.path, by_hand=False):
            return None
        lines, first = text.split("\n"), self.of.first
        while lines[first - 1].lstrip().startswith("#["):
            first -= 1
        # (from where to where the function stands, with its attributes)
        begin = len("\n".join(lines[:first])) + 1
        ending = len("\n".join(lines[: self.of.last + 1]))
        name = re.match(HEAD, lines[self.of.first])[1]
        twin = f"{name}_{self.name}" if self.is_made else f"{name}_as_it_is"
        start, end, new = change if self.is_made else (begin, begin, "")
        whole = text[begin:start] + new + text[end:ending]
        whole = re.sub(rf"\bfn {name}\b", f"fn {twin}", whole, count=1)
        self.function = self.of.path.removesuffix(name) + twin
        self.added = proofs_of_twin(self.crate, self.of.path, self.function)
        self.is_renamed = not self.added
        return ending, ending, f"\n\n{with_clauses(whole, labels) if labels else whole}"

    def against_the_rule(self, labels):
        """Why it may not name these clauses. An answer that is kept for one of several clauses does
        not fit one that stands alone, whose goal has another name: it would refuse any body."""
        told = [it for it in labels if it != BODY and f" ensures {it} {{" not in self.of.text]
        if told or (labels and not self.is_twin):
            return f"it has no twin with {' '.join(told or labels)} alone"
        if labels and any("-clause-" in it for it in self.added.values()):
            return "it names a clause ('breaks:'), and its function has kept answers to clauses"
        return None

    def place(self):
        return self.of.path if self.of else ""

    def full_name(self):
        return f"{self.crate.name}/{self.name}"

    def wanted(self):
        return "proved" if self.is_harmless else "refused"

    def unmade(self):
        """Its function as it is, to be judged where the edit is."""
        found = Edit(self.crate, self.name, self.text, self.is_harmless, is_made=False)
        found.is_alone = self.is_alone
        return found


def changed(before, after):
    """From where to where the texts differ, and what the second one has there."""
    most = min(len(before), len(after))
    start = next((at for at in range(most) if before[at] != after[at]), most)
    most -= start
    end = next((at for at in range(most) if before[-1 - at] != after[-1 - at]), most)
    return start, len(before) - end, after[start : len(after) - end]


def proofs_of_twin(crate, path, twin):
    """The proof files of the function, as those of its twin."""
    before, after = (it.replace("::", "/") for it in (path, twin))
    folder, texts = f"{crate.folder}/proofs/{before}", {}
    named = rf"\.(proofs|contracts)\.{re.escape(path.replace('::', '.'))}\b"
    ends = [it.rpartition("::")[2] for it in (path, twin)]
    for at, _, files in os.walk(folder):
        for file in files:
            text = rtlib.text_of(f"{at}/{file}").replace(f"{ends[0]}_spec", f"{ends[1]}_spec")
            to = os.path.relpath(f"{at}/{file}", folder)
            texts[f"proofs/{after}/{to}"] = re.sub(named, rf".\1.{twin.replace('::', '.')}", text)
    return texts


def with_clauses(text, labels):
    """The text of the function with the clauses of these labels alone, of those that begin with
    ensures."""
    kept, is_kept = [], True
    for line in text.split("\n"):
        clause = re.match(r" *(?:ensures (\w*) ?|requires\b.*)?\{", line)
        if clause:
            is_kept = clause[1] is None or clause[1] in labels
        if is_kept:
            kept.append(line)
    return "\n".join(kept)


def edits_of(crate):
    """The edits in a crate's folders wrong/ and harmless/."""
    return [Edit(crate, it.name, it.text, it.folder == "harmless") for it in every_edit()
            if it.crate == crate.name and it.folder != "must-fail"]


def planted(edits, changes_beside):
    """The texts of the files that the edits change or add, with all made, and those beside. Of those
    that change a function no two lie in one place."""
    places, texts = {path: [*changes] for path, changes in changes_beside.items()}, {}
    for edit in edits:
        texts |= edit.added
        for path, change in edit.changes.items():
            places.setdefault(path, []).append(change)
    for path, changes in places.items():
        text = rtlib.text_of(f"{edits[0].crate.folder}/{path}")
        for start, end, new in sorted(changes, reverse=True):
            text = text[:start] + new + text[end:]
        texts[path] = text
    return texts


def taken_at_word(crate, names):
    """By what the functions that are not named are taken at their contracts' word, where one can:
    proof files, and changes that leave them no code to read."""
    holes, changes = {}, {}
    for path, functions in functions_of(crate).items():
        lines = rtlib.text_of(f"{crate.folder}/{path}").split("\n")
        for it in functions:
            is_apart = it.is_of_trait or it.path == "main" or has_proof_apart(crate, it.path)
            if it.path in names or is_apart:
                continue
            file, hole = proof_with_hole(crate, it.path)
            holes[file] = hole
            body, last = lines_of_body(lines, it.first)
            if body is not None and not re.search(r"\bconst fn\b", lines[it.first]):
                start = len("\n".join(lines[: body + 1])) + 1
                end = len("\n".join(lines[:last]))
                changes.setdefault(path, []).append((start, end, NO_CODE))
    return holes, changes
