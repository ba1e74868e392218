"""The package rcu-replica as it is installed: by pip, by mypy, by the programs of its page, and by
an example over another message system.

The command `run` beside it runs it. With programs as its words it runs each as three machines over
the PostgreSQL that libpq's variables name.
"""
import concurrent.futures
import glob
import os
import re
import shutil
import socket
import subprocess
import sys
import tempfile
import time

FOLDER = os.path.dirname(os.path.dirname(os.path.realpath(__file__)))
ROOT = os.path.dirname(os.path.dirname(FOLDER))
PYTHON = "/usr/bin/python3"  # Debian's, which has Debian's modules
MYPY = "/usr/bin/mypy"
PAGE = "bindings/python/README.md"
VERSIONS = ("3.10", "3.11", "3.13")
# What another message system needs of the package, alone in a venv.
ALONE = """
import sys
from importlib.metadata import version
from rcu_replica import Replica
replica = Replica(3)
replica.begin([1, 2])
replica.report(1, 1)
replica.depart(2)
print(version("rcu-replica"), replica.end(), "redis" in sys.modules)
"""


def installed(made):
    """What goes wrong where pip installs the package from its folder."""
    shutil.copytree(FOLDER, f"{made}/folder", ignore=shutil.ignore_patterns("tests"))
    ran = run(PYTHON, "-m", "pip", "install", "--no-index", "-q", "--target", f"{made}/installed",
              f"{made}/folder")
    if ran.returncode:
        return ran.stdout + ran.stderr
    ran = run(f"{made}/installed/bin/rcu-replica", "--help", PYTHONPATH=f"{made}/installed")
    return None if "--own" in ran.stdout else ran.stdout + ran.stderr


def run(*words, **variables):
    return subprocess.run(words, env={**os.environ, **variables}, capture_output=True, text=True,
                          check=False)


def python_of(version):
    """A Python of that version which can make a venv, if there is one."""
    found = [shutil.which(f"python{version}"),
             *glob.glob(os.path.expanduser(f"~/.pyenv/versions/{version}.*/bin/python3"))]
    return next((it for it in found if it and not run(it, "-c", "import ensurepip").returncode),
                None)


def alone(made, version):
    """What goes wrong in a fresh venv of that version: pip finds nothing but the folder."""
    python, venv = python_of(version), f"{made}/venv-{version}"
    if not python:
        print(f"a venv of Python {version} is left out: that is not here")
        return None
    with open(f"{ROOT}/VERSION", encoding="utf-8") as file:
        wanted = f"{file.read().strip()} 4 False\n"
    for words in ((python, "-m", "venv", venv),
                  (f"{venv}/bin/pip", "install", "--no-index", "-q", f"{made}/folder"),
                  (f"{venv}/bin/python", "-c", ALONE)):
        ran = run(*words, RCU_LIBRARY=f"{made}/librcu.so")
        if ran.returncode:
            return f"Python {version}: {ran.stdout}{ran.stderr}"
    return None if ran.stdout == wanted else f"Python {version}: {ran.stdout} and not {wanted}"


def in_venvs(made):
    """What goes wrong in a fresh venv of each version."""
    with concurrent.futures.ThreadPoolExecutor() as pool:
        return next(filter(None, pool.map(alone, [made] * len(VERSIONS), VERSIONS)), None)


def has_postgres():
    return shutil.which("pg_virtualenv") and not run(PYTHON, "-c", "import psycopg2").returncode


def over_postgres(made):
    """What goes wrong in the example over PostgreSQL. A machine that deletes before it waits has to
    be found, too."""
    if not has_postgres():
        print("PostgreSQL is left out: postgresql or python3-psycopg2 is not installed")
        return None
    with open(f"{FOLDER}/examples/postgres.py", encoding="utf-8") as file:
        text = file.read()
    lines = r" +while not [^\n]*\n[^\n]*\n| +if first == 0:\n[^\n]*DELETE[^\n]*\n"
    waits, deletes = re.findall(lines, text)
    with open(f"{made}/planted.py", "w", encoding="utf-8") as file:
        file.write(text.replace(waits + deletes, deletes + waits))
    ran = run("pg_virtualenv", PYTHON, __file__, f"{FOLDER}/examples/postgres.py",
              f"{made}/planted.py", RCU_LIBRARY=f"{made}/librcu.so", PYTHONPATH=f"{made}/installed")
    is_well = ran.stdout.count("ended at 200") == 3 and "which is gone" in ran.stderr
    return None if is_well else ran.stdout + ran.stderr


def three_machines(program, database):
    """Runs the program as three machines of four processors, until one of them stops by a fault."""
    run("createdb", database)
    machines = [subprocess.Popen([PYTHON, program, "12", str(first), str(first + 3), "50"],
                                 env={**os.environ, "PGDATABASE": database})
                for first in (0, 4, 8)]
    while None in (ends := [it.poll() for it in machines]) and not any(ends):
        time.sleep(0.05)
    for it in machines:
        it.kill()
        it.wait()


def types(made):
    """What mypy says of the package, with Debian's types of redis-py."""
    if not os.path.isfile(MYPY):
        print(f"the types are left out: {MYPY} is not there")
        return None
    ran = subprocess.run([MYPY, "--strict", "--cache-dir", f"{made}/mypy", f"{FOLDER}/src/rcu_replica"],
                         capture_output=True, text=True, check=False)
    return None if ran.returncode == 0 else ran.stdout + ran.stderr


def page(made):
    """What goes wrong where the program and the commands of the page are run, at a free port."""
    with open(f"{ROOT}/{PAGE}", encoding="utf-8") as file:
        blocks = re.findall(r"(?ms)^```(python|sh)\n(.*?)^```", file.read())
    with socket.socket() as free, tempfile.TemporaryDirectory() as room:
        free.bind(("localhost", 0))
        port = str(free.getsockname()[1])
        with open(f"{room}/config.py", "w", encoding="utf-8") as file:
            file.write("".join(text for kind, text in blocks if kind == "python"))
        commands = "".join(text for kind, text in blocks if kind == "sh").replace("7700", port)
        commands = re.sub(r"(?m)^python3\b", PYTHON, commands)
        env = {**os.environ, "RCU_LIBRARY": f"{made}/librcu.so", "ROOM": room,
               "PYTHONPATH": f"{made}/installed",
               "PATH": f"{made}/installed/bin:{os.environ['PATH']}"}
        free.close()
        ran = subprocess.run(["bash", "-ec", f"trap 'kill $(jobs -p)' EXIT\n{commands}"], env=env,
                             capture_output=True, text=True, timeout=300, check=False, cwd=room)
    is_well = ran.returncode == 0 and not ran.stderr
    return None if is_well else ran.stdout + ran.stderr


if __name__ == "__main__":
    for number, name in enumerate(sys.argv[1:]):
        three_machines(name, f"course{number}")
