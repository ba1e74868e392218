"""liburcu's own tests over the drop-in, from Debian's source package, with no line changed. The
package is fetched by an apt configuration of this file's own, and kept in out/liburcu; its version
and checksum stand below. Run alone with a word behind it, FOLDER, it prints what each test said
(--long: in all ways, and the benchmarks too)."""
import concurrent.futures
import glob
import hashlib
import os
import re
import shutil
import subprocess
import sys
import tarfile

VERSION = "0.13.2-1"
ARCHIVE = "liburcu_0.13.2.orig.tar.bz2"
CHECKSUM = "1213fd9f1b0b74da7de2bb74335b76098db9738fec5d3cdc07c0c524f34fc032"
SOURCE = "{} [signed-by=/usr/share/keyrings/debian-archive-keyring.gpg] " \
         "http://deb.debian.org/debian {} main\n"
LATER, LATER_SUITE = "0.15.2-2", "trixie"
BINDING = os.path.dirname(os.path.dirname(os.path.realpath(__file__)))
FLAGS = ["-std=gnu11", "-O2", "-g", "-w", "-D_GNU_SOURCE", "-DHAVE_GETTID=1", "-DHAVE_RAND_R=1",
         "-DHAVE_SCHED_GETCPU=1", "-DHAVE_SCHED_SETAFFINITY=1", "-DHAVE_CPU_SET_T=1",
         "-DHAVE_SYSCONF=1"]
FLAVOURS = {"memb": ["-DRCU_MEMBARRIER"], "mb": ["-DRCU_MB"], "signal": ["-DRCU_SIGNAL"],
            "bp": ["-DRCU_BP"], "qsbr": ["-DTORTURE_QSBR", "-DRCU_QSBR"]}
SECONDS = 300
READERS = "3"


def run(words, **how):
    try:
        done = subprocess.run(words, stdin=subprocess.DEVNULL, stdout=subprocess.PIPE,
                              timeout=SECONDS,
                              stderr=subprocess.STDOUT, encoding="utf-8", errors="replace",
                              check=False, **how)
    except (subprocess.TimeoutExpired, OSError) as fault:
        return 1, str(fault)
    return done.returncode, done.stdout


def package():
    """The flags by which a program finds liburcu itself, with liburcu-cds: none where it is
    installed, else those of its package, unpacked below out/. None where it is not to be had."""
    if run(["pkg-config", "--exists", "liburcu-cds"])[0] == 0:
        return [], []
    folder = f"{BINDING}/out/liburcu-dev"
    os.makedirs(folder, exist_ok=True)
    if not glob.glob(f"{folder}/usr"):
        run(["apt-get", "-q", "download", "liburcu-dev", "liburcu8"], cwd=folder)
        for it in glob.glob(f"{folder}/*.deb"):
            run(["dpkg-deb", "-x", it, folder])
    libraries = glob.glob(f"{folder}/usr/lib/*-linux-gnu")
    if not libraries:
        return None
    return [f"-I{glob.glob(f'{folder}/usr/include/*-linux-gnu')[0]}"], \
        [f"-L{libraries[0]}", f"-Wl,-rpath,{libraries[0]}"]


def later_headers():
    """Where the headers of a later release are unpacked, or None where they are not to be had."""
    folder = f"{BINDING}/out/liburcu-{LATER}"
    if not os.path.isdir(f"{folder}/usr"):
        fetch(folder, f"liburcu-dev={LATER}", LATER_SUITE, "deb")
        for it in glob.glob(f"{folder}/*.deb"):
            run(["dpkg-deb", "-x", it, folder])
    found = glob.glob(f"{folder}/usr/include/*-linux-gnu")
    return found[0] if found else None


def is_whole(path, checksum=CHECKSUM):
    if not os.path.isfile(path):
        return False
    with open(path, "rb") as file:
        return hashlib.sha256(file.read()).hexdigest() == checksum


def fetch(folder, package=f"liburcu={VERSION}", suites="bookworm", kind="deb-src"):
    """The package's archive, or (deb) what it installs, by apt."""
    if not shutil.which("apt-get"):
        return
    for it in ("lists/partial", "cache/archives/partial"):
        os.makedirs(f"{folder}/{it}", exist_ok=True)
    with open(f"{folder}/sources.list", "w", encoding="utf-8") as file:
        file.writelines(SOURCE.format(kind, it) for it in suites.split())
    with open(f"{folder}/apt.conf", "w", encoding="utf-8") as file:
        file.write(f'Dir::Etc::SourceList "{folder}/sources.list";\nDir::Etc::SourceParts "-";\n'
                   f'Dir::State::Lists "{folder}/lists";\nDir::Cache "{folder}/cache";\n'
                   'APT::Sandbox::User "";\n')
    environment = {**os.environ, "APT_CONFIG": f"{folder}/apt.conf"}
    words = ["download"] if kind == "deb" else ["source", "--download-only"]
    for words in (["update"], [*words, package]):
        run(["apt-get", "-q", *words], cwd=folder, env=environment)


def source(into):
    """The folder of liburcu's source, laid there, or None where it is not to be had."""
    folder = f"{BINDING}/out/liburcu"
    os.makedirs(folder, exist_ok=True)
    if not is_whole(f"{folder}/{ARCHIVE}"):
        fetch(folder)
    if not is_whole(f"{folder}/{ARCHIVE}"):
        return None
    with tarfile.open(f"{folder}/{ARCHIVE}") as archive:
        archive.extractall(into)
    return glob.glob(f"{into}/userspace-rcu-*")[0]


class Builds:
    """Programs of liburcu's tests, over the archives of a folder."""

    def __init__(self, tests, out):
        self.tests, self.out = tests, out
        self.made = f"{out}/liburcu-tests"
        os.makedirs(self.made, exist_ok=True)

    def build(self, name, sources, flavours, flags=(), libraries=()):
        files = [it for one in sources for it in sorted(glob.glob(f"{self.tests}/{one}"))]
        return run(["gcc", *FLAGS, *flags, f"-I{BINDING}/include", f"-I{self.tests}/common",
                    f"-I{self.tests}/utils", f"-I{os.path.dirname(self.tests)}/src",
                    f"-I{os.path.dirname(self.tests)}/include", "-o",
                    f"{self.made}/{name}", *files, f"{self.tests}/utils/tap.c",
                    *(f"{self.out}/lib/liburcu{it}.a" for it in flavours), *libraries, "-lpthread"])

    def try_one(self, name, sources, flavours, flags=(), arguments=((),), libraries=()):
        """Builds a program, and runs it in each way: what, whether it passed, what it said."""
        status, said = self.build(name, sources, flavours, flags, libraries)
        if status != 0:
            return [(f"liburcu's {name}: the build", False, said)]
        rows = []
        for words in arguments:
            status, said = run([f"{self.made}/{name}", *words])
            well = status == 0 and not re.search(r"^not ok", said, re.MULTILINE)
            # A reader of the stress test may see none but the newest two of its versions.
            if "stress" in words:
                well = well and re.search(r"rcu_stress_count: \d+ \d+( 0){9}", said)
            rows.append((f"liburcu's {' '.join([name, *words])}", bool(well), said[-600:]))
        return rows


def unit_tests():
    every = ["", "-mb", "-signal", "-qsbr", "-bp"]
    yield "test_arch", ["unit/test_arch.c"], []
    yield "test_uatomic", ["unit/test_uatomic.c"], []
    for flags in ([], ["-DDYNAMIC_LINK_TEST"]):
        word = "_dynamic" if flags else ""
        yield f"multiflavor{word}", ["unit/test_urcu_multiflavor.c",
                                     "unit/test_urcu_multiflavor-*.c"], every, flags
        yield f"multiflavor_single_unit{word}", ["unit/test_urcu_multiflavor_single_unit.c"], \
            every, flags
    yield "test_urcu_fork", ["regression/test_urcu_fork.c"], [""]


def torture(is_long):
    kinds = ("perf", "rperf", "uperf", "stress") if is_long else ("stress",)
    for flavour, flags in FLAVOURS.items():
        ways = [(READERS, kind, "1", f"callrcu_{where}")
                for kind in kinds for where in ("global", "percpu", "perthread")]
        yield f"rcutorture_{flavour}", ["regression/rcutorture.c", "regression/urcutorture.c"], \
            [f"-{flavour}"], flags, ways


def benchmarks():
    """Those that need grace periods: readers, writers, seconds."""
    def one(name, flavour, flags=(), arguments=((READERS, "1", "1"),), libraries=(), source=None):
        return f"{source or name}{flavour}", [f"benchmark/{name}.c", "common/debug-yield.c"], \
            [flavour], flags, arguments, libraries

    for flavour, flags in (("-memb", []), ("-mb", ["-DRCU_MB"]), ("-signal", ["-DRCU_SIGNAL"])):
        for name in ("test_urcu", "test_urcu_assign", "test_urcu_gc", "test_urcu_defer"):
            yield one(name, flavour, flags)
        yield one("test_urcu_timing", flavour, flags, ((READERS, "1"),))
    yield one("test_urcu_gc", "", ["-DTEST_LOCAL_GC"], source="test_urcu_lgc")
    yield one("test_urcu_bp", "-bp")
    for name in ("test_urcu_qsbr", "test_urcu_qsbr_gc"):
        yield one(name, "-qsbr")
    yield one("test_urcu_qsbr_gc", "-qsbr", ["-DTEST_LOCAL_GC"], source="test_urcu_qsbr_lgc")
    yield one("test_urcu_qsbr_timing", "-qsbr", arguments=((READERS, "1"),))
    found = package()
    if found is None:
        print("run: liburcu-cds is not here and could not be fetched: no benchmark of it was run")
        return
    cds = [*found[1], "-lurcu-cds", "-lurcu-common"]
    for name in ("test_urcu_lfq", "test_urcu_lfs", "test_urcu_lfs_rcu"):
        yield one(name, "", arguments=(("2", "2", "1"),), libraries=cds)
    resizing = "-A -m 2 -n 131072 -X".split()
    yield one("test_urcu_hash*", "-qsbr", ["-DRCU_QSBR"],
              ((READERS, "1", "1"), (READERS, "2", "1", *resizing),
               (READERS, "2", "1", "-u", "-A")), cds, "test_urcu_hash")


def outcomes(out, pool, is_long=False):
    """What each test said. Where the package is not here, a line says so, and there is none."""
    folder = source(f"{out}/liburcu")
    if folder is None:
        print("run: liburcu's source package is not here and could not be fetched, "
              "so none of its own tests was run")
        return
    builds = Builds(f"{folder}/tests", out)
    started = [pool.submit(builds.try_one, *it)
               for it in [*unit_tests(), *torture(is_long), *(benchmarks() if is_long else ())]]
    for it in started:
        yield from it.result()


if __name__ == "__main__":
    with concurrent.futures.ThreadPoolExecutor(2) as threads:
        for what, passed, words in outcomes(os.path.realpath(sys.argv[1]), threads,
                                            "--long" in sys.argv):
            print(f"{'ok' if passed else 'BAD'} {what}{'' if passed else ': ' + words}", flush=True)
