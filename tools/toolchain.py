#!/usr/bin/env python3
"""The toolchain's command as a module, for the tools of this folder. Run alone, it prints how many
processors there are to use, where there is memory for a check on each; with the word '--anew' that
word, where `rt ci` takes it."""
import importlib.machinery
import importlib.util
import os
import subprocess
import sys

sys.dont_write_bytecode = True
TOOLS = os.path.dirname(os.path.realpath(__file__))
ROOT = os.path.dirname(TOOLS)


def kit():
    """The folder of the toolchain."""
    page = subprocess.run(["rt", "doc"], stdout=subprocess.PIPE, text=True, check=True).stdout
    return os.path.dirname(page)


KIT = kit()


def command():
    """`rt`: it knows the crates, reads edits, and checks copies as for must-fail/."""
    loader = importlib.machinery.SourceFileLoader("rt", f"{KIT}/bin/rt")
    module = importlib.util.module_from_spec(importlib.util.spec_from_loader("rt", loader))
    loader.exec_module(module)
    return module


rt = command()
rtlib = rt.rtlib

# Whether `rt ci` keeps what it proved, and takes the word '--anew': not each toolchain does.
KEEPS = hasattr(rt, "Kept")

# The memory in bytes that no check of this repository has been seen to take.
CHECK_MEMORY = 4_000_000_000


def is_newer(made, crate):
    """Whether the file or folder is there, and is no older than the files of the crate and those
    below."""
    if not os.path.exists(made):
        return False
    files = [file for it in [crate, *crate.below()] for file in rtlib.files_of(it.folder)]
    return all(os.path.getmtime(it) < os.path.getmtime(made) for it in files)


def is_up_to_date(crate):
    """Whether the library is built of the files as they are. (`rt ci` leaves no stamp. Of a library
    that an earlier run of it proved, the files are as old as that run, and the folder is new.)"""
    stamp = f"{os.path.dirname(crate.rlib)}/stamp"
    if os.path.isfile(stamp) or not os.path.isfile(f"{crate.rlib}/format"):
        return crate.is_built()
    return is_newer(crate.rlib, crate)


def build_library(crate):
    """Builds the library where it is not up to date. Returns whether it stands."""
    return is_up_to_date(crate) or not crate.build_rlib(["--jobs", "1"], anew=False)


if __name__ == "__main__" and "--anew" in sys.argv:
    print("--anew" * KEEPS)
elif __name__ == "__main__" and rt.processors() * CHECK_MEMORY <= rt.free():
    print(rt.processors())
