"""Installs the library into an empty folder, and builds and runs programs over it.

What packaging/install lays is compared with the list below; the shared object gives the headers'
calls alone, and a plugin with the archive in it gives none. Programs in C, C++ and Rust are built
by what pkg-config says, and have to print what they should: that of docs/C.md by the page's own
line, and others over the archive and over the shared object, by each compiler that is here, with
-flto and -static, and by musl-gcc. The manual has a page for each call, and groff sets them all.
"""
import os
import re
import shutil

from checks import ROOT, count, count_run, headers, lacks, read, run, write
from debian import soname_of

VERSION = read("VERSION").strip()
SONAME = soname_of(VERSION)
HEADERS = re.sub(r"/\*.*?\*/", "", "".join(map(read, headers())), flags=re.DOTALL)
# The calls that the library gives, and those that the headers give.
CALLS = set(re.findall(r"^\w+ (rcu_\w+)\([^;{]*\);$", HEADERS, re.MULTILINE))
GIVEN = set(re.findall(r"^static inline [^{;]*?\b(rcu_\w+)\(", HEADERS, re.MULTILINE)) | CALLS
# The old names of calls, which have no page.
OLD = set(re.findall(r'deprecated\("[^"]*"\)\)\)\nstatic inline [^{;]*?\b(rcu_\w+)\(', HEADERS))
LIBRARIES = ["rcu", *(f"rcu-{it}" for it in ("bp", "memb", "mb", "qsbr"))]
LAID = sorted([*headers(), "share/man/man3/rcu.3", "lib/cmake/rcu/rcu-config.cmake",
               "lib/cmake/rcu/rcu-config-version.cmake",
               *(f"lib/lib{it}.{end}" for it in LIBRARIES
                 for end in ("a", "so", f"so.{SONAME}", f"so.{VERSION}")),
               *(f"lib/pkgconfig/{it}.pc" for it in LIBRARIES),
               *(f"share/man/man3/{it}.3" for it in GIVEN - OLD)])
NEEDED = ["cc", "as", "ld", "objcopy", "nm", "readelf", "pkg-config"]

PLUGIN = """
#include <rcu.h>
uint32_t open_here(rcu_t *rcu) { return rcu_open(1, 4, rcu); }
"""


def files_in(folder):
    """The files below it, but for those of the drop-in for liburcu and of the header <rcu>: these
    are for the tests of bindings/urcu and bindings/cpp."""
    return sorted(os.path.relpath(os.path.join(at, name), folder)
                  for at, _, names in os.walk(folder) for name in names
                  if not re.search("rcu-(?:urcu|cpp)", os.path.join(at, name)))


def install(folder):
    """Installs twice: into the folder, and below DESTDIR. Returns whether the first one stands."""
    prefix, tool = f"{folder}/prefix", f"{ROOT}/packaging/install"
    plain = {name: it for name, it in os.environ.items() if name not in ("DESTDIR", "LIBDIR")}
    said = count_run("the install", [tool, prefix], env=plain)
    if said is None:
        return False
    count(files_in(prefix) == LAID, "the files that are laid", "\n".join(files_in(prefix)))
    told = sorted(said.split())
    count(told == [f"{prefix}/{it}" for it in LAID], "the files that it tells", said)
    staged = {**os.environ, "DESTDIR": f"{folder}/stage", "LIBDIR": "/usr/lib64"}
    count_run("the install below DESTDIR", [tool, "/usr"], env=staged)
    wanted = sorted(re.sub("^lib/", "lib64/", it) for it in LAID)
    count(files_in(f"{folder}/stage/usr") == wanted, "the files below DESTDIR")
    named = read(f"{folder}/stage/usr/lib64/pkgconfig/rcu.pc")
    count("prefix=/usr\nlibdir=/usr/lib64\n" in named and "stage" not in named,
          "rcu.pc below DESTDIR")
    return True


def look_at_texts(prefix):
    """The version, and the manual."""
    count(f"\nVersion: {VERSION}\n" in read(f"{prefix}/lib/pkgconfig/rcu.pc"), "that of rcu.pc")
    newest = re.search(r"(?m)^## ([\d.]+) \(\d{4}-\d\d-\d\d\)$", read("CHANGELOG.md"))
    count(newest and newest[1] == VERSION, "the newest version of CHANGELOG.md")
    if not lacks("install", ["groff"], "no page of the manual was set"):
        for name in files_in(f"{prefix}/share/man/man3"):
            ran = run(["groff", "-man", "-Tutf8", "-ww", "-z", f"man3/{name}"],
                      cwd=f"{prefix}/share/man")
            count(ran.returncode == 0 and not ran.stdout, f"the page {name} is set", ran.stdout)


def names_given(path):
    """The names that a shared object gives to others."""
    told = run(["nm", "-D", "--defined-only", path]).stdout.splitlines()
    return {it.split()[-1].split("@")[0] for it in told if " T " in it}


def look_at_libraries(prefix, folder):
    shared = f"{prefix}/lib/librcu.so"
    count(names_given(shared) == CALLS, "the calls of the shared object")
    told = run(["readelf", "-d", shared]).stdout
    count(f"soname: [librcu.so.{SONAME}]" in told and "TEXTREL" not in told, "its soname", told)
    inside = re.findall(r"(?m)^\S+ [A-TV-Z] (\w+)$", run(["nm", f"{prefix}/lib/librcu.a"]).stdout)
    count(set(inside) == CALLS, "the names of the archive")
    source, made = write(f"{folder}/plugin.c", PLUGIN), f"{folder}/plugin.so"
    count_run("a plugin", ["cc", "-shared", "-fPIC", f"-I{prefix}/include", "-o", made, source,
                           f"{prefix}/lib/librcu.a"])
    count(names_given(made) == {"open_here"}, "what a plugin gives")


def try_program(what, words, printed, env, folder):
    """Builds a program by these words, and runs it: it has to print what the file has."""
    ran = run(words, env=env, cwd=folder)
    if ran.returncode == 0:
        ran = run([f"{folder}/a.out"], env=env)
    count(ran.returncode == 0 and ran.stdout == read(printed), what, ran.stdout)


def ways(env):
    """How programs are linked: a name, the compiler's flags, and what stands behind the program."""
    def asked(*words):
        return run(["pkg-config", *words, "rcu"], env=env).stdout.split()

    flags, archive = asked("--cflags"), asked("--variable=archive")
    yield "archive", flags, archive
    yield "shared object", flags, asked("--libs")
    yield "archive, -flto", ["-O2", "-flto", *flags], archive
    yield "archive, -static", ["-static", *flags], archive
    yield "pkg-config --static", ["-static", *flags], asked("--static", "--libs")


def try_compilers(folder, env):
    """Programs in C and C++, by each compiler that is here, in each way."""
    for name in ("gcc", "clang", "musl-gcc", "g++", "clang++"):
        if lacks("install", [name], "no program was built by it"):
            continue
        own, end = (["-std=c++17", "-Wall", "-Wextra", "-Werror"], "cpp") if "++" in name else (
            ["-std=c11"], "c")
        for way, flags, libraries in ways(env):
            if name == "musl-gcc" and way == "shared object":
                continue  # it is of the machine's own C library
            for program in ("moved",) if end == "cpp" else ("one_thread", "sleeping_driver"):
                path = f"{ROOT}/examples/c/{program}"
                words = [name, *own, *flags, f"{path}.{end}", *libraries, "-lpthread"]
                try_program(f"{program}: {name}, {way}", words, f"{path}.stdout", env, folder)


def try_page(folder, env):
    """The first program of docs/C.md, alone in a folder, by the line of the page."""
    page = read("docs/C.md")
    name, text = re.search(r"```c bindings/\S+/(\S+\.c)\n(.*?)```", page, re.DOTALL).groups()
    line = re.search(r"(?m)^    (cc .*)$", page)[1]
    write(f"{folder}/page/{name}", text)
    printed = write(f"{folder}/page/stdout", re.search(r"It prints: (.*) \*/", text)[1] + "\n")
    try_program("the program of docs/C.md, by its own line", ["sh", "-c", line], printed, env,
                f"{folder}/page")


def try_rust(folder, env):
    """A program in Rust, in a crate of its own over the crate as it stands."""
    if lacks("install", ["cargo"], "no program was built by it"):
        return
    crate, binding = f"{folder}/program", f"{folder}/bindings/rust"
    for it in ("rcu-sys", "rust"):
        shutil.copytree(f"{ROOT}/bindings/{it}", f"{folder}/bindings/{it}",
                        ignore=shutil.ignore_patterns("target", "Cargo.lock"))
    write(f"{crate}/Cargo.toml", '[package]\nname = "program"\nversion = "0.0.0"\n'
          'edition = "2021"\n[dependencies]\nrcu = { path = "../bindings/rust" }\n')
    write(f"{crate}/src/main.rs", read(f"{binding}/examples/replace.rs"))
    ran = run(["cargo", "run", "--offline", "--quiet"], env=env, cwd=crate)
    count(ran.returncode == 0 and ran.stdout == read(f"{binding}/examples/replace.stdout"),
          "the program in Rust", ran.stdout)


def try_all(folder):
    prefix = f"{folder}/prefix"
    if lacks("install", NEEDED, "nothing was installed") or not install(folder):
        return
    look_at_texts(prefix)
    look_at_libraries(prefix, folder)
    env = {**os.environ, "PKG_CONFIG_PATH": f"{prefix}/lib/pkgconfig",
           "LD_LIBRARY_PATH": f"{prefix}/lib"}
    try_page(folder, env)
    try_compilers(folder, env)
    try_rust(folder, env)
