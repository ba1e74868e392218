"""What the tools that test a list of things have in common: they count, and say what failed."""
import functools
import os
import shutil
import subprocess

ROOT = os.path.dirname(os.path.dirname(os.path.realpath(__file__)))

# Whether ./test runs this: over builds that no proof stands behind, and what takes over 20 seconds
# in a smaller form.
IS_QUICK = bool(os.environ.get("RCU_UNPROVED"))

counts = {True: 0, False: 0}


def count(passed, what, said=""):
    """Counts one thing; of one that failed it shows what was said."""
    counts[bool(passed)] += 1
    if not passed:
        print(f"{said}\nfailed: {what}".lstrip())


def count_rows(*checks, given=()):
    """Counts each of these, which yields a line for each thing that is wrong."""
    for check in checks:
        rows = list(check(*given))
        count(not rows, check.__name__.replace("_", " "), "\n".join(rows))


def finish():
    """Prints the counts, as the last line. Returns the status."""
    print(f"{counts[True]} passed, {counts[False]} failed")
    return 1 if counts[False] else 0


def lacks(tool, names, without):
    """Whether one of these commands is not here, which is said with what is left out."""
    missing = [it for it in names if shutil.which(it) is None]
    if missing:
        print(f"{tool}: {missing[0]} is not here, so {without}")
    return bool(missing)


def read(path):
    with open(os.path.join(ROOT, path), encoding="utf-8", newline="") as file:
        return file.read()


@functools.lru_cache(maxsize=None)
def files():
    """The files of the repository, by their paths from the root, without what is built."""
    found = []
    for folder, below, names in os.walk(ROOT):
        below[:] = set(below) - {".git", "out", "target", "__pycache__"}
        found += [os.path.relpath(f"{folder}/{it}", ROOT) for it in names]
    return sorted(found)


def headers():
    """The headers of the library for C: rcu.h, and those that include it."""
    return [it for it in files() if it.startswith("include/") and it.endswith(".h")]


def write(path, text):
    path = os.path.join(ROOT, path)
    os.makedirs(os.path.dirname(path), exist_ok=True)
    with open(path, "w", encoding="utf-8") as file:
        file.write(text)
    return path


def run(words, seconds=600, **how):
    """Runs a command to its end, with all that it says in one text."""
    how = {"stdin": subprocess.DEVNULL, "stderr": subprocess.STDOUT, **how}
    return subprocess.run(words, stdout=subprocess.PIPE, check=False, encoding="utf-8",
                          timeout=seconds, **how)


def unproved(what):
    """The path of an unproved build: what is 'program' or 'archive'."""
    return subprocess.run([f"{ROOT}/tools/unproved", what], stdin=subprocess.DEVNULL, check=True,
                          stdout=subprocess.PIPE, encoding="utf-8").stdout.strip()


def count_run(what, words, seconds=600, **how):
    """Counts a command, which has to end well. Returns what it said, or nothing."""
    ran = run(words, seconds, **how)
    count(ran.returncode == 0, what, ran.stdout)
    return ran.stdout if ran.returncode == 0 else None


def is_proved():
    """Whether ./rcu is the proved build: the other one needs the toolchain, hidden here."""
    words = [f"{ROOT}/rcu", "script", "--leaf", "2", "--inner", "2", "--cpus", "1"]
    return run(words, env={**os.environ, "PATH": "/usr/bin:/bin"}).returncode == 0
