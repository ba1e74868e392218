"""Layers with planted faults, which the trials of servers have to find (servers).

A reader holds a pointer for microseconds: too short for a free that comes too early to be seen, but
for a transfer of Knot DNS, which is one section. In gdnsd and lttng-tools readers are delayed while
they hold one: in rcu_dereference of the layer's header, or, if it is liburcu-cds that loads it,
behind each step through one of its tables. The same delay is there over a layer that waits, the
control, over which all has to be right."""
import shutil

import liburcu_tests
import sessions
from faults import FAULTS

BINDING = liburcu_tests.BINDING
SANITIZER = "-g -O1 -fsanitize=address -fno-omit-frame-pointer"
# The delay of rcu_dereference: it calls the layer, which sleeps for a millisecond.
DELAYED = (
    ("include/urcu/pointer.h",
     "#define rcu_dereference(p) __atomic_load_n(&(p), __ATOMIC_ACQUIRE)",
     "#define rcu_dereference(p) \\\n    ((__typeof__(p))rcu_dereference_sym(__atomic_load_n((void "
     "**)&(p), __ATOMIC_ACQUIRE)))"),
    ("src/flavour.c", "SHARED_NAME void *rcu_dereference_sym(void *p) {\n",
     "SHARED_NAME void *rcu_dereference_sym(void *p) {\n"
     "    nanosleep(&(struct timespec){0, 1000000}, 0);\n"),
)
# The delay of a table's readers, in calls that are found before liburcu-cds's own.
DELAY_OF_STEPS = """#define _GNU_SOURCE
#include <dlfcn.h>
#include <time.h>
#define DELAYED(name) void name(void *table, void *at) { \\
    void (*step)(void *, void *) = dlsym(RTLD_NEXT, #name); \\
    step(table, at); \\
    nanosleep(&(struct timespec){0, 1000000}, 0); }
DELAYED(cds_lfht_first)
DELAYED(cds_lfht_next)
"""
NO_WAIT, NO_REST, TWICE = "a wait does not wait", "a worker does not rest", "a callback runs twice"
# The report by which a server has to show its first fault. A failure is not enough: a server that
# does not start fails too, and the daemons of lttng-tools have faults of their own, with such
# reports (sessions.OWN). There a wait that does not wait is seen as a read of what a callback
# freed, often as lttng-consumerd gives a connection up in a section; and a callback that runs
# twice, as it is called.
AFTER_FREE = r"(AddressSanitizer: heap-use-after-free \S+ in "
REPORTS = {**dict.fromkeys((("gdnsd", NO_WAIT), ("knot", NO_WAIT)), f"{AFTER_FREE}\\w+)"),
           ("lttng", NO_WAIT): rf" in run_all\b.*\n(?:(?!SUMMARY).*\n)*SUMMARY: {AFTER_FREE}"
                               rf"(?!(?:{'|'.join(sessions.OWN_READS)})\b)\w+)",
           ("lttng", TWICE): rf"{AFTER_FREE}run_all\b)"}


def edits_of(faults, is_delayed):
    rows = [FAULTS[it][:3] for it in faults]
    return [(f"src/{file}", old, new) for file, old, new in rows] + [*DELAYED] * is_delayed


def lay(laid, edits):
    """A copy of the layer's sources, edited. An edit whose text is not there once is an error."""
    shutil.rmtree(laid, True)
    for it in ("src", "include"):
        shutil.copytree(f"{BINDING}/{it}", f"{laid}/{it}")
    for file, old, new in edits:
        with open(f"{laid}/{file}", encoding="utf-8") as source:
            text = source.read()
        if text.count(old) != 1:
            raise ValueError(f"{file} does not have once: {old}")
        with open(f"{laid}/{file}", "w", encoding="utf-8") as source:
            source.write(text.replace(old, new))


def delay_steps(run, laid):
    """Builds what delays the readers of tables in a program that loads it first. Its path, or None;
    and what was said."""
    with open(f"{laid}/delay.c", "w", encoding="utf-8") as file:
        file.write(DELAY_OF_STEPS)
    status, said = run(["cc", "-O1", "-shared", "-fPIC", "-o", "delay.so", "delay.c", "-ldl"], laid)
    return f"{laid}/delay.so" if status == 0 else None, said


def build_layer(run, prefix, laid, edits=()):
    """Builds the shared objects of a layer with the sanitizer, over the library of the install.
    Their folder, or None; and what was said."""
    lay(laid, edits)
    status, said = run(["ar", "x", f"{prefix}/lib/librcu.a"], laid)
    if status == 0:
        status, said = run(
            ["make", "-s", "-C", BINDING, f"OUT={laid}/out", f"SRC={laid}/src", f"RCU={laid}/rcu.o",
             f"CPPFLAGS=-I{laid}/include -I{BINDING}/../../include", f"CFLAGS={SANITIZER}",
             "WARNINGS=-w", f"{laid}/out/lib/liburcu.so", f"{laid}/out/lib/liburcu-qsbr.so"], laid)
    return f"{laid}/out/lib" if status == 0 else None, said
