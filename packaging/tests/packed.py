"""A release, packed twice and looked at, and used in a root of its own.

Both packings are of one proved build and one result of the gate, so they are the same. Debian's
packages are asked by lintian, and have no file where liburcu has one. The header refuses another
machine by a sentence, and the archive has the instructions of any x86-64 alone. Then programs are
built and run in a root (the scripts root and user), and nothing is left once all is taken away.
"""
import os
import re
import runpy
import shutil

import debian
import links
from checks import ROOT, count, count_run, lacks, read, run, write

NEEDED = ["git", "cc", "c++", "pkg-config", "objdump", "sha256sum"]
RESULT = "commit: {}\ncounts: 7 passed, 0 failed\nended: 2026-11-28 02:00 UTC\ntook: 10:01\n"
ELSEWHERE = "the proved library is for Linux on x86-64 alone"
LIBURCUS = re.compile(r"usr/(?:include|lib/[\w-]+|lib/[\w-]+/pkgconfig)/(?:lib)?urcu")


def pack(folder, result):
    said = count_run("a release is packed",
                     [f"{ROOT}/packaging/release", folder, "--gate", result])
    return said is not None


def lost_links(share):
    """The links of the pages that lead to no file of the release."""
    for page in (it for it in debian.files_in(share) if it.endswith(".md")):
        folder = os.path.dirname(f"{share}/{page}")
        for _, path in links.links(f"{share}/{page}"):
            file = (path or "").partition("#")[0]
            if "://" not in file and not os.path.exists(os.path.join(folder, file)):
                yield f"{page}: {path}"


def look_at_file(folder, prefix):
    """What the file lays, and what it says of itself."""
    os.mkdir(prefix)
    file = next(it for it in os.listdir(folder) if it.endswith(".tar.gz"))
    count_run("its checksums", ["sha256sum", "--check", "SHA256SUMS"], cwd=folder)
    count_run("it unpacks", ["tar", "-C", prefix, "-xzf", f"{folder}/{file}"])
    found = run(["grep", "-rl", "-e", ROOT, "-e", "/tmp/", prefix]).stdout.splitlines()
    found = [it for it in found if "/share/rcu/" not in it]
    count(not found, "no path of this machine", "\n".join(found))
    build, proved = (read(f"{prefix}/share/rcu/{it}") for it in ("BUILD", "PROVED"))
    count("gate: 7 passed, 0 failed; ended 2026-11-28 02:00 UTC, took 10:01\n" in build
          and build.endswith(proved), "what BUILD says", build)
    lost = list(lost_links(f"{prefix}/share/rcu"))
    count(not lost, "each link of a page leads to a file", "\n".join(lost))
    needed = re.search(r"glibc ([\d.]+) or later", build)
    count(needed and f"glibc {needed[1]}" in read("docs/C.md"), "the oldest glibc", build)
    libraries = [it for it in debian.files_in(prefix) if re.match(r"lib/.*\.(a|so\.[\d.]+)$", it)
                 and not os.path.islink(f"{prefix}/{it}")]
    left = [it for it in libraries if f"  {it}\n" not in proved]
    count("lib/rcu-urcu/liburcu-bp.a" in libraries and not left, "PROVED has each library",
          "\n".join(left))
    look = ["sha256sum", "--check", "--quiet", "share/rcu/PROVED"]
    count_run("the files are as PROVED says", look, cwd=prefix)
    with open(f"{prefix}/lib/librcu.a", "ab") as archive:
        archive.write(b"\n")
    count(run(look, cwd=prefix).returncode, "one that is not is told")


def look_at_layer(prefix, folder):
    """The layer with liburcu's API, built from the release under the thread sanitizer: a program over
    it is told of no race."""
    urcu, made = f"{prefix}/share/rcu/bindings/urcu", f"{folder}/layer"
    flags = "-O1 -g -fsanitize=thread"
    archive = f"{made}/lib/liburcu-memb.a"
    count_run("the layer under the thread sanitizer",
              ["make", "-s", "-C", urcu, f"OUT={made}", f"CFLAGS={flags}", archive])
    said = run(["cc", *flags.split(), f"-I{urcu}/include", f"{urcu}/tests/sanitized.c", "-o",
                f"{made}/program", archive, "-lpthread"])
    said = said if said.returncode else run([f"{made}/program"])
    count(said.stdout == "reclaimed in 4 ways\n", "a program over it", said.stdout)


def look_at_machine(prefix):
    """The machines that it is for. (The program that `rt ci` leaves is for later processors than
    that of ./prove, and BUILD says so.)"""
    processors = runpy.run_path(f"{ROOT}/packaging/release")["processors"]
    told = processors(f"{prefix}/lib/librcu.a")
    count(told == "any of them", "the archive is for any x86-64", told)
    later = write(f"{prefix}/later.c", "int f(int x) { return __builtin_popcount(x); }\n")
    count_run("code for later ones", ["cc", "-O1", "-mpopcnt", "-c", "-o", f"{later}.o", later])
    count(processors(f"{later}.o") != "any of them", "it is told")
    for header, place in (("rcu.h", ""), ("rcu/map.h", ""), ("urcu.h", "/rcu-urcu")):
        for other in ("-U__x86_64__", "-D__ILP32__", "-U__linux__"):
            said = run(["sh", "-c", f"echo '#include <{header}>' | cc {other} -fsyntax-only "
                        f"-I{prefix}/include{place} -x c -"])
            count(said.returncode and ELSEWHERE in said.stdout, f"{header}, {other}", said.stdout)


def look_at_packages(folder):
    """Debian's packages, by lintian, and beside liburcu's."""
    packages = sorted(f"{folder}/{it}" for it in os.listdir(folder) if it.endswith(".deb"))
    if lacks("packed", ["dpkg-deb"], "no package was looked at"):
        return
    count(len(packages) == 3, "three packages", packages)
    if not lacks("packed", ["lintian"], "no package was asked by it"):
        count_run("lintian", ["lintian", "--fail-on", "error", *packages])
    listed = "".join(run(["dpkg-deb", "--contents", it]).stdout for it in packages)
    paths = set(re.findall(r"(?m)^[-l].* \./(\S+)(?: ->.*)?$", listed))
    met = [it for it in paths if LIBURCUS.match(it)]
    own = run(["dpkg", "-L", "liburcu8", "liburcu-dev"])
    if own.returncode:
        print("packed: liburcu's packages are not here, so only their places were looked at")
    met += [it for it in paths if f"/{it}\n" in own.stdout]
    count(paths and not met, "no file where liburcu has one", "\n".join(met))


def look_at_calls(folder):
    """The calls beside those of the last release."""
    count_run("the calls and the version", [f"{ROOT}/packaging/calls"])
    unlike = runpy.run_path(f"{ROOT}/packaging/calls")["unlike"]
    old = ["void rcu_a(void)", "rcu_fault: RCU_B = 1"]
    new, other = [*old, "void rcu_c(void)"], [old[0], "rcu_fault: RCU_B = 2"]
    for what, now, before, version, changes, wrong in (
            ("the same", old, "1.2.0", "1.2.1", "", 0),
            ("a new call", new, "1.2.0", "1.3.0", "rcu_c", 0),
            ("a new call in the same version", new, "1.2.0", "1.2.1", "rcu_c", 1),
            ("a new call that is not named", new, "1.2.0", "1.3.0", "rcu_cd", 1),
            ("a call is gone", old[1:], "1.2.0", "1.3.0", "rcu_a", 1),
            ("another soname", old[1:], "1.2.0", "2.0.0", "rcu_a", 0),
            ("a call is gone below 1.0.0", old[1:], "0.2.0", "0.2.1", "rcu_a", 1),
            ("another soname there", old[1:], "0.2.0", "0.3.0", "rcu_a", 0),
            ("another number", other, "1.2.0", "1.3.0", "RCU_B", 1)):
        row = f"version {before}"
        found = [*unlike([row, *old], [row, *now], version, changes)]
        count(len(found) == wrong, what, "\n".join(found))
    told = runpy.run_path(f"{ROOT}/packaging/release")["gate_told"]
    count("another commit" in told(write(f"{folder}/other", RESULT.format("00")), "01")
          and "no result" in told(f"{folder}/none", "01"), "a result of another commit, or none")


def try_root(folder, suite):
    """Uses the release in a root of its own."""
    needed = ["unshare", "chroot", "mount", "dpkg", *(["debootstrap"] if suite else [])]
    left = "the release was used in no root"
    if lacks("packed", needed, left):
        return
    if run(["unshare", "--mount", "--pid", "--fork", "mount", "-t", "tmpfs", "none", "/mnt"]
           ).returncode:
        print(f"packed: nothing may be mounted here, so {left}")
        return
    said = run([f"{ROOT}/packaging/tests/root", folder, f"{ROOT}/packaging/tests/programs",
                *([suite] if suite else [])])
    rows = re.split(r"(?m)^(?=ok: |FAILED: |left out: |told: )", said.stdout)
    for row in rows:
        kind, _, what = row.partition(": ")
        if kind in ("ok", "FAILED"):
            count(kind == "ok", f"in the root: {what}")
        else:
            print(row, end="")
    count(said.returncode == 0 and said.stdout.count("nothing is left") == 2, "the root's end",
          said.stdout)


def try_all(folder, suite):
    if lacks("packed", NEEDED, "nothing was packed"):
        return
    commit = run(["git", "rev-parse", "HEAD"], cwd=ROOT).stdout.strip()
    result = write(f"{folder}/result", RESULT.format(commit))
    if not pack(f"{folder}/one", result) or not pack(f"{folder}/two", result):
        return
    count(read(f"{folder}/one/SHA256SUMS") == read(f"{folder}/two/SHA256SUMS"),
          "two packings are the same")
    shutil.rmtree(f"{folder}/two")
    look_at_file(f"{folder}/one", f"{folder}/prefix")
    look_at_layer(f"{folder}/prefix", folder)
    look_at_machine(f"{folder}/prefix")
    look_at_packages(f"{folder}/one")
    look_at_calls(folder)
    try_root(f"{folder}/one", "")
    if suite:
        try_root(f"{folder}/one", suite)
    else:
        print("packed: left out is a root by debootstrap, which needs a network (--debootstrap)")
