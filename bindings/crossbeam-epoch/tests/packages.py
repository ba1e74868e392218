"""The tests of crates that stand on crossbeam-epoch, of Debian's packages, over our own crate.

Nothing of them stands in the repository: they are laid from the packages as they run. Each crate is
taken whole but crossbeam-epoch itself. Of it these are: the unit tests of the public calls, the
queue and the list that it has inside, as they stand and with their tests, the examples of its
pages, and its example `sanitize`. Where they call a private function to make a step, they call
`flush`. Left out are the tests that look into private parts, and those for loom.
"""
import glob
import os
import re
import shutil

from cargo import MADE, ROOT, cargo, count, read, tests_passed, write

PACKAGES = "/usr/share/cargo/registry"
# What each needs beside itself, as packages librust-NAME-dev.
NEEDED = {"crossbeam-epoch": "crossbeam-utils rand rustversion",
          "crossbeam-deque": "crossbeam-epoch rand", "crossbeam": "crossbeam-deque rand",
          "rayon-core": "crossbeam-deque rand_xorshift scoped-tls libc",
          "rayon": "rayon-core rand_xorshift lazy_static"}
# These take minutes, and run with --long.
LONG = ("rayon",)
# These run under the thread sanitizer too, in this way.
SANITIZED = ("crossbeam-epoch", "crossbeam-deque")
THREADS, TESTS = "under the thread sanitizer", "--release --tests --target x86_64-unknown-linux-gnu"
# They look into private parts.
PRIVATE = ("flush_local_bag", "garbage_buffering", "pin_holds_advance", "buffering")
STEP = re.compile(r"collector\.global\.collect\(&?(guard|handle\.pin\(\))\)")
# What of them the thread sanitizer does not follow: the fences of crossbeam-deque; a lock of std,
# under which its test `destructors` counts; the end of an Arc, by which crossbeam-utils waits.
SUPPRESSED = "race:crossbeam_deque\nrace:destructors\nrace:crossbeam_utils::sync::wait_group\n"
MANIFEST = """[package]
name = "epoch-tests"
version = "0.0.0"
edition = "2018"

[features]
default = ["std"]
std = []

[dependencies]
crossbeam-epoch = "0.9"
crossbeam-utils = "0.8"
rand = "0.8"
rustversion = "1"
"""
# By which cargo takes the packages in place of the registry, and our crate in place of theirs.
SOURCE = """[source.crates-io]
replace-with = "packages"
[source.packages]
directory = "{packages}"
"""
PATCH = """[patch.crates-io]
crossbeam-epoch = {{ path = "{folder}/bindings/crossbeam-epoch" }}
"""
CONFIG = SOURCE + PATCH
# A crate that asks for a release, and what cargo says if it takes another crate than ours.
ASKS = """[package]
name = "asks"
version = "0.0.0"
edition = "2021"

[dependencies]
crossbeam-epoch = "{}"
"""
NOT_USED = "Patch `crossbeam-epoch v0.9.21 (..)` was not used in the crate graph"


def package(name):
    """The folder of a package, or None."""
    found = sorted(glob.glob(f"{PACKAGES}/{name}-[0-9]*"))
    return found[-1] if found else None


def unit_tests(path):
    """The tests of a file, without those that look into private parts."""
    text = read(path)
    block = text[re.search(r"^#\[cfg\(all\(test[^\n]*\n", text, re.MULTILINE).end():]
    for name in PRIVATE:
        test = rf"(?:    #\[cfg[^\n]*\n)*    #\[test\]\n    fn {name}\(\) \{{\n.*?\n    \}}\n"
        block = re.sub(test, "", block, flags=re.DOTALL)
    return "#[cfg(test)]\n" + STEP.sub(lambda it: f"{it[1]}.flush()", block)


def programs_of(path):
    """The programs in the pages of a file: the lines between two fences of one page."""
    block = None
    for line in read(path).splitlines():
        found = re.match(r"\s*//[/!] ?(.*)", line)
        if not found:
            block = None
        elif not found[1].startswith("```"):
            if block is not None:
                block.append(found[1])
        elif block is None:
            block = [found[1]]
        else:
            yield [*block, found[1]]
            block = None


def examples(folder):
    """The programs of the pages, each above a function of its own."""
    for path in sorted(glob.glob(f"{folder}/src/*.rs")):
        name = os.path.basename(path)[:-3]
        if name not in ("internal", "epoch", "deferred"):
            for number, program in enumerate(programs_of(path), 1):
                yield from (f"/// {line}" for line in program)
                yield f"fn of_{name}_{number}() {{}}"


def lay_epoch(folder, into):
    """Lays the tests of crossbeam-epoch as a crate, whose root is our crate's."""
    write(f"{into}/Cargo.toml", MANIFEST)
    rows = ["#![allow(warnings)]", "extern crate alloc;", "pub use crossbeam_epoch::*;",
            "mod sync { pub(crate) mod list; pub(crate) mod queue; }"]
    for name in ("atomic", "collector", "default"):
        rows += [f"mod {name} {{", "use crossbeam_epoch::*;", unit_tests(f"{folder}/src/{name}.rs"),
                 "}"]
    write(f"{into}/src/lib.rs", "\n".join([*rows, "mod examples {", *examples(folder), "}"]) + "\n")
    for name in ("list", "queue"):
        write(f"{into}/src/sync/{name}.rs", read(f"{folder}/src/sync/{name}.rs"))
    write(f"{into}/examples/sanitize.rs", read(f"{folder}/examples/sanitize.rs"))


def lay_whole(folder, into):
    """Lays a crate as it stands."""
    for path in glob.glob(f"{folder}/**/*", recursive=True):
        if path.endswith((".rs", "Cargo.toml", ".md")):
            write(f"{into}/{os.path.relpath(path, folder)}", read(path))


def try_tests(name, crate, how, env, which=""):
    """Runs tests, and tells how many passed."""
    tested = cargo(f"test {which}", env, crate)
    passed = tests_passed(tested.stdout)
    told = re.search(r"ThreadSanitizer|was not used in the crate graph", tested.stdout)
    count(tested.returncode == 0 and passed > 0 and not told, f"the tests of {name}, {how}")
    print(f"{name}, {how}: {passed} tests", flush=True)


def try_bench(folder, env):
    """The measuring program is compiled, and not run."""
    shutil.copytree(f"{ROOT}/bench/crossbeam", f"{folder}/bench/crossbeam", ignore=MADE)
    write(f"{folder}/bench/.cargo/config.toml", SOURCE.format(packages=PACKAGES))
    count(cargo("check", env, f"{folder}/bench/crossbeam").returncode == 0, "bench/crossbeam")


def try_versions(folder, plain):
    """A crate that asks for any release from 0.9.0 to 0.9.21 gets ours; one that asks for a newer
    one is refused. Where another is taken, cargo says what README.md has."""
    crate, config = f"{folder}/asks", PATCH.format(folder=folder)
    write(f"{crate}/src/main.rs", "fn main() { drop(crossbeam_epoch::pin()); }\n")
    os.makedirs(f"{folder}/none")
    for asked, works in (("0.9", True), ("0.9.19", True), ("0.9.21", True), ("0.9.22", False)):
        write(f"{crate}/Cargo.toml", ASKS.format(asked))
        write(f"{crate}/.cargo/config.toml", SOURCE.format(packages=f"{folder}/none") + config)
        told = cargo("check", plain, crate, tells=works)
        count((told.returncode == 0) == works and "was not used" not in told.stdout,
              f"a crate that asks for {asked}")
    theirs = package("crossbeam-epoch")
    if theirs and not theirs.endswith("-0.9.21"):
        write(f"{crate}/Cargo.toml", ASKS.format("=" + theirs.rpartition("-")[2]))
        write(f"{crate}/.cargo/config.toml", SOURCE.format(packages=PACKAGES) + config)
        told = cargo("generate-lockfile", plain, crate).stdout
        with open(f"{ROOT}/bindings/crossbeam-epoch/README.md", encoding="utf-8") as file:
            page = file.read()
        count("was not used in the crate graph" in told and NOT_USED in " ".join(page.split()),
              "what cargo says of a patch that is not used")


def try_all(folder, plain, threads, is_long):
    """Runs them plain, and where there is a thread sanitizer some of them under it."""
    try_versions(folder, plain)
    write(f"{folder}/theirs/.cargo/config.toml", CONFIG.format(packages=PACKAGES, folder=folder))
    for name, needed in NEEDED.items():
        lacking = [it for it in [name, *needed.split()] if not package(it)]
        if lacking:
            packages = " ".join(f"librust-{it.replace('_', '-')}-dev" for it in lacking)
            print(f"the tests of {name} were left out: not here are {packages}")
        if lacking or (name in LONG and not is_long):
            continue
        crate, is_epoch = f"{folder}/theirs/{name}", name == "crossbeam-epoch"
        (lay_epoch if is_epoch else lay_whole)(package(name), crate)
        try_tests(name, crate, "plain", plain)
        if threads and name in SANITIZED:
            try_tests(name, crate, THREADS, threads, TESTS)
        if is_epoch:
            try_bench(folder, plain)
            ran = cargo("run --release --example sanitize", plain, crate)
            count(ran.returncode == 0, "crossbeam-epoch's example")
