#!/usr/bin/env python3
"""Lays programs of bench/rattle in a folder, beside copies of the crates that they stand on.

Use: bench/lay.py FOLDER PROGRAM..

What each program stands on is a line of bench/rattle/crates.txt.in. The crates come with what their
last check left in out/. The gate wants each file '.rt' and '.antt' of the repository in a crate that
it proves: so those of bench/rattle end in '.in', which they lose here.
"""
import glob
import os
import shutil
import subprocess
import sys

BENCH = os.path.dirname(os.path.realpath(__file__))
ROOT = os.path.dirname(BENCH)
RATTLE = f"{BENCH}/rattle"
PARTS = ("src", "specs", "proofs", "out")
TACTIC = "#![tactic(auto)]\n"
# The crate of several programs.
TOGETHER = "together"


def crates_in(path):
    """What each crate of the list stands on, in the order of the list."""
    with open(path, encoding="utf-8") as file:
        pairs = [line.rstrip("\n").split(": ") for line in file]
    return {name: below.split() for name, below in pairs}


def programs():
    """What each program stands on."""
    return crates_in(f"{RATTLE}/crates.txt.in")


def with_below(names, crates):
    """The crates of these names and all below them, but for the kit's."""
    own = {name for name in names if name in crates}
    return own.union(*(with_below(crates[name], crates) for name in own))


def copy_crate(name, top, parts):
    """Copies these parts of a crate, as old as they are."""
    made = f"{top}/crates/{name}"
    os.makedirs(made)
    found = [path for part in parts if os.path.isdir(path := f"{ROOT}/crates/{name}/{part}")]
    subprocess.run(["cp", "-rp", *found, made], check=True)


def lay_program(name, top, programs=RATTLE):
    """Lays the program's files as a crate."""
    for path in glob.glob(f"{programs}/{name}/**/*.in", recursive=True):
        made = f"{top}/crates/{os.path.relpath(path, programs).removesuffix('.in')}"
        os.makedirs(os.path.dirname(made), exist_ok=True)
        shutil.copy(path, made)
    os.makedirs(f"{top}/crates/{name}/proofs", exist_ok=True)
    with open(f"{top}/crates/{name}/proofs/Lib.antt", "w", encoding="utf-8"):
        pass


def lay_together(top, names):
    """Lays crates of the folder's crates.txt once more, as modules of one crate: so what they stand
    on is read once for all. There each `main` is a test, which may wait and start threads too."""
    for name in names:
        for path in glob.glob(f"{top}/crates/{name}/src/*.rt"):
            with open(path, encoding="utf-8") as file:
                text = file.read().replace(TACTIC, "").replace("crate::", f"crate::{name}::")
            is_root = os.path.basename(path) in ("main.rt", "lib.rt")
            made = f"{top}/crates/{TOGETHER}/src/{name}" + (
                ".rt" if is_root else f"/{os.path.basename(path)}")
            os.makedirs(os.path.dirname(made), exist_ok=True)
            with open(made, "w", encoding="utf-8") as file:
                file.write(text.replace("\nfn main(", "\n#[test]\nfn main("))
    with open(f"{top}/crates/{TOGETHER}/src/lib.rt", "w", encoding="utf-8") as file:
        file.writelines([TACTIC, *(f"mod {name};\n" for name in names)])
    crates = crates_in(f"{top}/crates.txt")
    below = dict.fromkeys(it for name in names for it in crates[name])
    with open(f"{top}/crates.txt", "a", encoding="utf-8") as file:
        file.write(f"{TOGETHER}: {' '.join(below)}\n")


def lay(top, names, parts=PARTS):
    """Lays these programs and what is below them, with these parts of the crates."""
    measuring = programs()
    crates = crates_in(f"{ROOT}/crates.txt")
    below = with_below([it for name in names for it in measuring[name]], crates)
    for name in below:
        copy_crate(name, top, parts)
    for name in names:
        lay_program(name, top)
    shutil.copy(f"{ROOT}/HANDLES", top)
    laid = {name: crates[name] for name in crates if name in below}
    laid |= {name: measuring[name] for name in names}
    with open(f"{top}/crates.txt", "w", encoding="utf-8") as file:
        file.writelines(f"{name}: {' '.join(it)}\n" for name, it in laid.items())


if __name__ == "__main__":
    lay(sys.argv[1], sys.argv[2:])
