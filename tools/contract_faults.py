"""The faults and needs that the doc comment of each export of rcu_c tells, beside its contract.

Clauses name faults by their numbers, or by definitions of specs/ that say why a call is refused.
Each call has the two faults of a handle that it does not take, too, which no doc comment lists."""
import re

import c_calls
from checks import files, read

EXPORT = re.compile(r"no_mangle\)\]\n(?:pub )?extern \"C\" fn (\w+)(.*?)^\{",
                    re.DOTALL | re.MULTILINE)
# A definition whose value is a fault, or has faults in it: its name, and its text.
DEFINITION = re.compile(r"^ *(?:abbrev )?pub (\w+) : (?:[^\n]*\n +→)*?[^\n]*\b(?:Fault|Refusal)\b"
                        r"[^\n]*\n(?: +→[^\n]*\n)*"
                        r"((?: *\1\b[^\n]*\n(?: +(?!\1\b)(?!--)\S[^\n]*\n)*)+)", re.MULTILINE)
# What is tested of a call, in order: the call, and its causes.
CAUSES = re.compile(r"^causes \w+ \(?(\w+)[^=\n]*=(.*\n(?: +\S.*\n)*)", re.MULTILINE)
# Of these the text names the faults in another order than they are tested in.
OTHER_ORDER = {"if_own", "queue_refusal"}
# The faults of a handle that a call does not take, and what stands for them in a clause.
OF_HANDLES = {27, 28}
NUMBER_OF_HANDLE = {"engine_number": "engine_refusal", "seat_number": "seat_refusal",
                    "replica_number": "replica_refusal"}
# Those that have no handle but the one that they open.
WITHOUT_HANDLE = {"rcu_open_as", "rcu_open_map_as", "rcu_replica_open"}
# What a contract has, and never comes: the fanouts are 16 and 64; docs/C.md speaks of 3.
NEVER = {"rcu_open_as": {18}, "rcu_open_map_as": {18}, "rcu_replica_open": {18}, "rcu_depart": {3}}


class Specs:
    """The definitions of faults by name and crate, and the number of each fault."""

    def __init__(self):
        self.known, self.numbers = {}, {}
        self.crates = re.findall(r"^(rcu_\w+)", read("crates.txt"), re.MULTILINE)
        for path in (it for it in files() if re.fullmatch(r"crates/\w+/specs/\w+\.antt", it)):
            crate, text = path.split("/")[1], read(path)
            for call, body in CAUSES.findall(text):
                self.known[f"{crate}_causes_{call}"] = {crate: body}
            for below, module in re.findall(r"^use Rattle\.(\w+)\.specs\.\w+ as (\w+)$", text,
                                            re.MULTILINE):
                text = re.sub(rf"\b{module}\.refusal [\w.]+ {module}\.(\w+)",
                              rf"{below}_causes_\1", text)
            for name, body in DEFINITION.findall(text):
                if name != "first_fault":
                    self.known.setdefault(name, {})[crate] = body
            self.numbers |= {name: int(number) for name, number in re.findall(
                r"^(?:fault|refusal)_number (\w+) = (\d+)$", text, re.MULTILINE)}

    def crate_of(self, name, crate):
        """Where a crate has a definition from: the nearest crate below that has one."""
        order = self.crates.index
        return max((it for it in self.known[name] if order(it) <= order(crate)), key=order)

    def faults_in(self, text, crate="rcu_c"):
        """The faults that a text of a crate names, and lists of those that have an order."""
        words = re.findall(r"\w+", text)
        named = [self.numbers[it] for it in words if it in self.numbers]
        found, lists = set(named), [named]
        for name in [it for it in words if it in self.known]:
            own = self.crate_of(name, crate)
            # (what stands before '=' is the name itself, which a list's definition calls again)
            body = re.sub(rf"(?m)^ *{name}\b[^=\n]*=|\b{name}\b", "", self.known[name][own])
            below, more = self.faults_in(body, own)
            found |= below
            lists += more[1:] if name in OTHER_ORDER else more
        return found, lists

    def faults_of(self, clauses):
        """The faults of a contract, and the lists of those that have an order."""
        found, lists = set(), []
        handles = "|".join(NUMBER_OF_HANDLE)
        for text in re.findall(r"ensures(?: \w+)? \{ (.*?) \}\n", clauses, re.DOTALL):
            for name in re.findall(rf"\w+_refusal\b|\b(?:{handles})\b", text):
                below, more = self.faults_in(NUMBER_OF_HANDLE.get(name, name))
                found |= below
                lists += more
            for call in re.findall(r"\brefusal \(replica_of [\w.]+\)\s+\(?(\w+)", text):
                below, more = self.faults_in(f"rcu_report_causes_{call}")
                found |= below
                lists += more
            told = rf"(?:result ≡|\b(?:{handles}) [\w.]+)\s+"
            found |= {int(it) for it in re.findall(rf"{told}(\d+)\b", text)}
            for pair in re.findall(rf"{told}\(if .* then (\d+) else (\d+)\)", text):
                found |= {int(it) for it in pair}
            found |= {16} if "tested_number result" in text else set()
        return found - {0}, lists


def needs(call):
    """What the doc comment says that must hold, of what a contract can require."""
    said = " ".join(re.findall(r"Needs: (.*?)\.(?: |$)", " ".join(call.paragraphs)))
    return set(re.findall(r"`(?:rcu|seat|replica)` is closed", said))


def required(clauses):
    """What the `requires` of a call say; one that no doc comment has words for stands as it is."""
    found = re.findall(r"requires(?: \w+)? \{ (.*?) \}", clauses)
    return {re.sub(r"^IsNone (rcu|seat|replica)\b[\w.]*$", r"`\1` is closed", it) for it in found}


def unlike(library):
    """A row for each export whose doc comment says otherwise than its contract."""
    specs = Specs()
    contracts = dict(it for text in library.files.values() for it in EXPORT.findall(text))
    for call in library.calls():
        name, said, clauses = call.name, c_calls.faults_of(call), contracts[call.name]
        found, lists = specs.faults_of(clauses)
        found -= NEVER.get(name, set())
        if said and name not in WITHOUT_HANDLE and not found >= OF_HANDLES:
            yield f"{name}: its contract does not tell a handle that is closed or of the other kind"
        found -= OF_HANDLES
        if found != set(said):
            yield f"{name}: its contract has the faults {sorted(found)}, its doc comment {said}"
        for ordered in lists:
            ordered = [it for it in ordered if it in said]
            if ordered != [it for it in said if it in ordered]:
                yield f"{name}: its contract tests {ordered}, its doc comment has {said}"
        if needs(call) != required(clauses):
            yield f"{name} needs {sorted(required(clauses))}, its doc comment {sorted(needs(call))}"
