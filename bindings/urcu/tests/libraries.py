"""Which library a program takes that is compiled by the headers here: the layer, or none. Over
liburcu itself it is not linked, and one that is linked with the layer does not start: what the
linker or the loader says names the layer's folder. So it is for each flavour and compiler, though
names are bound lazily. By libtool, which drops the rpath of a convenience library, the layer is
taken by its files `.la`."""
import os
import shutil
import subprocess

HERE = os.path.dirname(os.path.realpath(__file__))
INCLUDE = f"{os.path.dirname(HERE)}/include"
FLAVOURS = ("memb", "mb", "signal", "bp", "qsbr")
SAYS = "is_in_lib_rcu_urcu_set_L_and_rpath"
PROGRAM = """#include <stdio.h>
#include <urcu/urcu-{}.h>
int main(void) {{
    puts("it has started");
    fflush(stdout);
    rcu_register_thread();
    synchronize_rcu();
    rcu_unregister_thread();
    return 0;
}}
"""


def run(words, **more):
    done = subprocess.run(words, stdin=subprocess.DEVNULL, stdout=subprocess.PIPE, check=False,
                          stderr=subprocess.STDOUT, encoding="utf-8", errors="replace",
                          timeout=60, env={**os.environ, **more})
    return done.returncode, done.stdout


def folder_of(libraries):
    """Where liburcu itself is, by the flags that link it (none where it is installed)."""
    for it in libraries:
        if it.startswith("-L"):
            return it[2:]
    return os.path.dirname(run(["cc", "-print-file-name=liburcu-qsbr.so"])[1])


def of_compiler(compiler, flavour, out, theirs, folder):
    """A program over the layer, linked with liburcu, and started over it."""
    source, made = f"{folder}/{flavour}.c", f"{folder}/{compiler}-{flavour}"
    with open(source, "w", encoding="utf-8") as file:
        file.write(PROGRAM.format(flavour))
    words = [compiler, "-O2", "-DURCU_API_MAP", f"-I{INCLUDE}", source, "-Wl,-z,lazy",
             f"-lurcu-{flavour}", "-lpthread", "-o", made]
    status, said = run([*words, f"-L{theirs}"])
    yield f"{flavour} is not linked with liburcu", status != 0 and SAYS in said, said
    status, said = run([*words, f"-L{out}/lib"])
    yield f"{flavour} is linked with the layer", status == 0, said
    status, said = run([made], LD_LIBRARY_PATH=f"{out}/lib")
    yield f"{flavour} over the layer", status == 0 and "it has started" in said, said
    status, said = run([made], LD_LIBRARY_PATH=theirs)
    yield f"{flavour} does not start over liburcu", \
        status != 0 and SAYS in said and "it has started" not in said, said


def of_libtool(prefix, folder):
    """A program with a convenience library, by the files for pkg-config alone."""
    path = f"{prefix}/lib/rcu-urcu/pkgconfig"
    _, words = run(["pkg-config", "--cflags", "--libs", "liburcu"], PKG_CONFIG_PATH=path)
    flags, libraries = ([it for it in words.split() if it.startswith("-I") is wanted]
                        for wanted in (True, False))
    with open(f"{folder}/part.c", "w", encoding="utf-8") as file:
        file.write("#include <urcu.h>\nvoid wait_once(void) { synchronize_rcu(); }\n")
    with open(f"{folder}/whole.c", "w", encoding="utf-8") as file:
        file.write("void wait_once(void);\nint main(void) { wait_once(); return 0; }\n")
    step = ["libtool", "--silent", "--tag=CC"]
    said = ""
    for words in (["--mode=compile", "cc", *flags, "-c", "part.c", "-o", "part.lo"],
                  ["--mode=link", "cc", "-o", "libpart.la", "part.lo", *libraries],
                  ["--mode=compile", "cc", "-c", "whole.c", "-o", "whole.lo"],
                  ["--mode=link", "cc", "-o", "whole", "whole.lo", "libpart.la"]):
        done = subprocess.run([*step, *words], cwd=folder, stdin=subprocess.DEVNULL, check=False,
                              stdout=subprocess.PIPE, stderr=subprocess.STDOUT, encoding="utf-8")
        said += done.stdout
    status, told = run([f"{folder}/whole"]) if os.path.exists(f"{folder}/whole") else (1, said)
    yield "a program by libtool takes the layer", status == 0, told


def outcomes(out, libraries, prefix, folder):
    """What, whether it passed, and what was said. `libraries` are the flags by which liburcu itself
    is linked, `prefix` is an install."""
    theirs = folder_of(libraries)
    for compiler in ("gcc", "clang"):
        if not shutil.which(compiler):
            print(f"run: {compiler} is not here, so no program was linked by it")
            continue
        for flavour in FLAVOURS:
            for what, passed, said in of_compiler(compiler, flavour, out, theirs, folder):
                yield f"a program by {compiler}: {what}", passed, said
    if shutil.which("libtool") and shutil.which("pkg-config"):
        yield from of_libtool(prefix, folder)
    else:
        print("run: libtool is not here, so no program was linked by it")
