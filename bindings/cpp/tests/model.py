#!/usr/bin/env python3
"""Tries what the header and cpp.c add to the layer over all interleavings and store buffers.

Use: tests/model.py [--quotes FOLDER]

The protocols are those of inlined.py, and are tried as the layer's own are (model.py of
bindings/urcu, which says how). With --quotes it asks alone whether the code in a copy of the
folders include and src of this binding has the steps that they quote. The last line is
'N passed, M failed'.
"""
import os
import sys

sys.dont_write_bytecode = True
HERE = os.path.dirname(os.path.realpath(__file__))
LAYER = f"{HERE}/../../urcu"
sys.path[1:1] = [f"{LAYER}/tests"]
sys.path.append(sys.path.pop(0))  # its model.py comes before this one
import model
from inlined import PROTOCOLS


def code_in(folder):
    """The files whose steps are quoted: the header, cpp.c and the layer."""
    layer = sorted(f"{LAYER}/src/{it}" for it in os.listdir(f"{LAYER}/src"))
    own = {it: f"{folder}/src/{it}" for it in os.listdir(f"{folder}/src")}
    return [f"{folder}/include/rcu", own.pop("cpp.c"),
            *(own.pop(os.path.basename(it), it) for it in layer)]


def main(words):
    if words[:1] == ["--quotes"]:
        code = "".join(open(it, encoding="utf-8").read() for it in code_in(words[1]))
        missing = sorted(set(model.unknown_quotes(PROTOCOLS, code)))
        print("\n".join([*missing, f"{int(not missing)} passed, {int(bool(missing))} failed"]))
        return bool(missing)
    return model.try_all(PROTOCOLS, code_in(f"{HERE}/.."))


if __name__ == "__main__":
    sys.exit(main(sys.argv[1:]))
