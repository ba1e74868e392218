"""What the tests of the crates in bindings/ share: an install of the library, copies of the crates
over it, what cargo says of one, and faults that are planted in it.
"""
import os
import re
import shutil
import signal
import subprocess

BINDINGS = os.path.realpath(f"{os.path.dirname(__file__)}/../..")
ROOT = os.path.dirname(BINDINGS)
MADE = shutil.ignore_patterns("target", "Cargo.lock", "__pycache__")
NEEDED = ("cargo", "pkg-config", "cc", "as", "ld", "objcopy", "nm")
# What is asked of a crate, and the command of cargo.
ASKED = [("the layout of rustfmt", "fmt --check"), ("what clippy says", "clippy --all-targets"),
         ("its tests", "test"), ("its documentation", "doc --no-deps")]
# Whether ./test runs this, over a library that no proof stands behind: then only the layout and the
# tests are asked, and no fault is planted.
IS_QUICK = bool(os.environ.get("RCU_UNPROVED"))
# After so many seconds a run counts as stuck: many times what the longest takes.
SECONDS = 600
# The same of the tests that have to find a planted fault, of which some hang by it.
PATIENCE = 20

counts = {True: 0, False: 0}


def count(passed, what):
    counts[bool(passed)] += 1
    if not passed:
        print(f"failed: {what}", flush=True)


def end():
    """The last line, and the status."""
    print(f"{counts[True]} passed, {counts[False]} failed")
    return 1 if counts[False] else 0


def read(path):
    with open(path, encoding="utf-8") as file:
        return file.read()


def write(path, text):
    os.makedirs(os.path.dirname(path), exist_ok=True)
    with open(path, "w", encoding="utf-8") as file:
        file.write(text)


def run(words, env=None, cwd=None, tells=True):
    """Runs a command. What one that fails prints is printed, unless it is to fail."""
    ran = subprocess.run(words, stdin=subprocess.DEVNULL, stdout=subprocess.PIPE, check=False,
                         stderr=subprocess.STDOUT, encoding="utf-8", errors="replace",
                         timeout=SECONDS, env=env, cwd=cwd)
    if tells and ran.returncode != 0:
        print(ran.stdout)
    return ran


def cargo(command, env, crate, tells=True):
    words = command.split()
    return run(["cargo", *words, *([] if words[0] == "fmt" else ["--offline"])], env, crate, tells)


def lay_library(folder):
    """Installs the proved library for pkg-config. One that no proof stands behind is not installed:
    the crate rcu-sys carries it, as in a release."""
    if IS_QUICK:
        carried = f"{folder}/bindings/rcu-sys/lib"
        os.mkdir(carried)
        return run([f"{ROOT}/packaging/library", carried])
    plain = {name: it for name, it in os.environ.items() if name not in ("DESTDIR", "LIBDIR")}
    return run([f"{ROOT}/packaging/install", f"{folder}/prefix"], plain)


def install(folder):
    """Lays the library, and copies of the crates in the folder. Returns the environment for cargo,
    or None."""
    lacking = [it for it in NEEDED if shutil.which(it) is None]
    if lacking:
        print(f"{lacking[0]} is not here, so nothing was built")
        return None
    shutil.copytree(BINDINGS, f"{folder}/bindings", ignore=MADE)
    installed = lay_library(folder)
    count(installed.returncode == 0, "the install")
    if installed.returncode != 0:
        return None
    return {**os.environ, "PKG_CONFIG_PATH": f"{folder}/prefix/lib/pkgconfig",
            "CARGO_TARGET_DIR": f"{folder}/target", "RUSTFLAGS": "-D warnings",
            "RUSTDOCFLAGS": "-D warnings"}


def tests_passed(told):
    """How many tests cargo says that passed."""
    return sum(int(it) for it in re.findall(r"test result: ok\. (\d+) passed; 0 failed", told))


def try_crate(crate, env):
    """The layout, the warnings of the compiler and of clippy, the tests and the documentation; and
    that for another machine it does not compile, with a sentence."""
    for what, command in ASKED:
        if IS_QUICK and command.split()[0] in ("clippy", "doc"):
            continue
        tool = {"fmt": "rustfmt", "clippy": "cargo-clippy"}.get(command.split()[0], "cargo")
        if shutil.which(tool) is None:
            print(f"{tool} is not here, so it was not asked")
            continue
        told = cargo(command, env, crate)
        count(told.returncode == 0 and (command != "test" or tests_passed(told.stdout)), what)
    if IS_QUICK:
        return
    path = f"{crate}/src/lib.rs"
    plain = read(path)
    write(path, plain.replace('target_arch = "x86_64"', 'target_arch = "aarch64"'))
    told = cargo("check", env, crate, tells=False)
    sentence = re.search(r'compile_error!\("(.*)"\)', plain)
    count(told.returncode and sentence and sentence[1] in told.stdout, "another machine")
    write(path, plain)


def is_found(crate, env, test, only):
    """Whether the test fails, or hangs, once it is built. None where it is not built."""
    if cargo(f"test --test {test} --no-run", env, crate).returncode:
        return None
    ran = subprocess.Popen(["cargo", "test", "--offline", "--test", test, "--", *only], env=env,
                           cwd=crate, start_new_session=True, stdin=subprocess.DEVNULL,
                           stdout=subprocess.DEVNULL, stderr=subprocess.DEVNULL)
    try:
        return ran.wait(PATIENCE) != 0
    except subprocess.TimeoutExpired:
        os.killpg(ran.pid, signal.SIGKILL)
        ran.wait()
        return True


def plant(crate, env, faults):
    """Plants each fault alone in the crate's copy. Each is a name, a file, pairs of a text that
    stands in it once and what takes its place, a test, and the functions of that which have to find
    it."""
    env = {**env, "RUSTFLAGS": "", "CARGO_PROFILE_TEST_OPT_LEVEL": "2"}
    for what, file, pairs, test, *only in faults:
        plain = turned = read(f"{crate}/{file}")
        for old, new in pairs:
            if turned.count(old) != 1:
                print(f"'{old}' does not stand once in {file}")
            turned = turned.replace(old, new)
        write(f"{crate}/{file}", turned)
        found = turned != plain and is_found(crate, env, test, only)
        count(found, f"{what}: {'not built' if found is None else 'no test found it'}")
        write(f"{crate}/{file}", plain)
