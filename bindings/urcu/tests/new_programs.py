"""Programs that are new: the examples, built as their heads say from an install.

Each is built by what pkg-config says of rcu-bp, over the shared object and over the archive, as C
and as C++, and under sanitizers and Valgrind if they are there; and by CMake. It has to print what
its head says. liburcu-cds is the machine's own: where it is not, the table is left out."""
import os
import re
import shutil
import subprocess

HERE = os.path.dirname(os.path.realpath(__file__))
EXAMPLES = os.path.join(os.path.dirname(HERE), "examples")
MANUAL = os.path.join(HERE, "../../../docs/rcu.3")
MAIN = """
int main(void) {
    replace(1);
    replace(2);
    int value = read_setting();
    rcu_barrier();
    free(shown);
    return value != 2;
}
"""
# (liburcu-cds is built without a sanitizer, so that of threads sees no step of a table)
SANITIZERS = {"setting": ("address", "undefined", "thread"), "table": ("address", "undefined")}
CMAKE = """cmake_minimum_required(VERSION 3.13)
project(setting C)
find_package(rcu REQUIRED)
foreach(form bp bp-static)
    add_executable(setting-${form} setting.c)
    target_link_libraries(setting-${form} rcu::${form})
endforeach()
"""


def run(words, **how):
    done = subprocess.run(words, stdin=subprocess.DEVNULL, stdout=subprocess.PIPE,
                          stderr=subprocess.STDOUT, encoding="utf-8", errors="replace",
                          timeout=200, check=False, **how)
    return done.returncode, done.stdout


def printed(source):
    """What the head of an example says that it prints."""
    with open(source, encoding="utf-8") as file:
        return re.search(r"It prints: (.*?) \*/", file.read())[1] + "\n"


class Install:
    """An install of the library, as pkg-config sees it."""

    def __init__(self, prefix):
        self.libraries = f"{prefix}/lib"
        self.environment = {**os.environ, "PKG_CONFIG_PATH": f"{self.libraries}/pkgconfig",
                            "LD_LIBRARY_PATH": self.libraries}

    def says(self, *words):
        return run(["pkg-config", *words, "rcu-bp"], env=self.environment)[1].split()

    def outcome(self, what, source, folder, words):
        """Whether a program is built so, and prints what its head says."""
        made = f"{folder}/{re.sub('[^a-z]+', '-', what)}"
        status, said = run([*words[:1], source, "-o", made, *words[1:]])
        if status == 0:
            status, said = run([made], env=self.environment)
        return what, status == 0 and said == printed(source), said

    def outcomes_of(self, name, folder, more=()):
        """The ways to build one example."""
        source, flags = f"{EXAMPLES}/{name}.c", self.says("--cflags")
        shared = [*self.says("--libs"), *more]
        static = [*self.says("--variable=archive"), *more, "-lpthread"]
        yield self.outcome(f"{name}: shared", source, folder, ["cc", *flags, *shared])
        yield self.outcome(f"{name}: static", source, folder, ["cc", *flags, *static])
        for compiler in filter(shutil.which, ("gcc", "clang")):
            words = [compiler, "-std=c11", "-D_GNU_SOURCE", "-Wall", "-Wextra", "-Werror", *flags]
            yield self.outcome(f"{name}: {compiler}", source, folder, words + shared)
            for it in SANITIZERS[name]:
                words = [compiler, "-g", f"-fsanitize={it}", "-fno-sanitize-recover=all", *flags]
                yield self.outcome(f"{name}: {compiler} under {it}", source, folder,
                                   words + static)
        if shutil.which("valgrind"):
            words = ["valgrind", "-q", "--error-exitcode=9", f"{folder}/{name}-static"]
            status, said = run(words, env=self.environment)
            yield f"{name}: under valgrind", status == 0 and said == printed(source), said

    def outcome_of_manual(self, folder):
        """The program of rcu(3), with a main that makes its calls."""
        with open(MANUAL, encoding="utf-8") as file:
            code = re.search(r"(?s)\.EX\n(.*?)\.EE", file.read())[1].replace("\\-", "-")
        source = f"{folder}/manual.c"
        with open(source, "w", encoding="utf-8") as file:
            file.write(f"#include <stdlib.h>\n#include <urcu-bp.h>\n{code}{MAIN}")
        status, said = run(["cc", "-Wall", "-Wextra", "-Werror", *self.says("--cflags"), source, "-o",
                            f"{folder}/manual", *self.says("--libs")])
        if status == 0:
            status, said = run([f"{folder}/manual"], env=self.environment)
        return "the program of rcu(3)", status == 0, said

    def outcomes_by_cmake(self, folder):
        shutil.copy(f"{EXAMPLES}/setting.c", folder)
        with open(f"{folder}/CMakeLists.txt", "w", encoding="utf-8") as file:
            file.write(CMAKE)
        made = f"{folder}/made"
        for words in (["cmake", "-S", folder, "-B", made, f"-DCMAKE_PREFIX_PATH={self.libraries}/.."],
                      ["cmake", "--build", made]):
            status, said = run(words)
            yield f"setting by CMake: {words[1]}", status == 0, said
        for form in ("bp", "bp-static"):
            status, said = run([f"{made}/setting-{form}"], env=self.environment)
            yield f"setting by CMake, rcu::{form}", said == printed(f"{EXAMPLES}/setting.c"), said


def outcomes(prefix, folder, table):
    """What, whether it is as it should be, and what was said. table: the words for liburcu-cds's
    headers and libraries, or None."""
    install = Install(prefix)
    yield from install.outcomes_of("setting", folder)
    yield install.outcome_of_manual(folder)
    if table is not None:
        yield from install.outcomes_of("table", folder, [*table, "-lurcu-cds"])
    if shutil.which("cmake"):
        yield from install.outcomes_by_cmake(folder)
