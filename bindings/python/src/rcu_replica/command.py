"""One machine of a cluster, which hears of the others over Redis.

It prints what began and ended, and what it waits for. Lines on its input: 'enter C' and 'exit C' of
a reader on the own processor C, 'begin' to ask for a grace period, 'awaits', and 'status' for a line
of JSON. SIGTERM makes it leave the cluster in order: it stops once no begin names its processors.
With --leave it leaves at once, in place of a machine that is gone for good: all others wait for
that one till then.

The variables RCU_REDIS_USER and RCU_REDIS_PASSWORD have user and password, and RCU_LIBRARY the path
of librcu.so. Status 0: it left in order; 1: it did not leave in time, Redis lost what it had
answered, or another machine speaks for a processor of this one.
"""
from __future__ import annotations

import argparse
import json
import signal
import sys
import threading
from typing import Any, List, Optional

from .machine import STALL, Machine
from .streams import named, numbered


SAYING = threading.RLock()  # (a handler of signals prints, too)


def say(*words: object) -> None:
    """Prints a line as a whole: two threads do."""
    with SAYING:
        sys.stdout.write(" ".join(map(str, words)) + "\n")
        sys.stdout.flush()


def reply(machine: Machine, line: str) -> None:
    """Does what a line asks."""
    name, *cpus = line.split() or [""]
    try:
        protocol = machine.at_work()
        if name == "enter":
            machine.enter(int(cpus[0]), 0)
            say("done")
        elif name == "exit":
            machine.exit(int(cpus[0]))
            say("done")
        elif name == "begin":
            machine.defer(lambda: None)
        elif name == "awaits":
            say("awaits", named(protocol.awaited) or "none")
        elif name == "status":
            say(json.dumps(machine.status()))
        elif name:
            say(f"no such line: {name}")
    except Exception as error:  # a wrong line stops nothing
        say(f"refused: {error!r}")


def options() -> argparse.ArgumentParser:
    parser = argparse.ArgumentParser(prog="rcu-replica", description=__doc__,
                                     formatter_class=argparse.RawDescriptionHelpFormatter)
    parser.add_argument("url", help="redis://HOST:PORT/DB, rediss://.. or unix://PATH")
    parser.add_argument("--cpus", type=int, required=True, help="processors of the whole cluster")
    parser.add_argument("--own", required=True, help="those of this machine, as 0-21")
    parser.add_argument("--name", default="",
                        help="what the others call it when they wait for it (HOST:PROCESS)")
    parser.add_argument("--prefix", default="rcu", help="of the names of its keys (rcu)")
    parser.add_argument("--status", action="store_true", help="print a line of JSON a second")
    parser.add_argument("--leave", action="store_true",
                        help="leave at once: for a machine that is gone, and all of its readers")
    parser.add_argument("--patience", type=float, default=30.0, metavar="SECONDS",
                        help="how long SIGTERM lets it leave in order (30)")
    parser.add_argument("--timeout", type=float, default=5.0, metavar="SECONDS",
                        help="after which an answer of Redis is given up (5)")
    parser.add_argument("--stall", type=float, default=STALL, metavar="SECONDS",
                        help="after which it tells whom a grace period waits for (10; 0: never)")
    return parser


def main(words: Optional[List[str]] = None) -> int:
    given = options().parse_args(words)
    machine = Machine(given.url, given.cpus, numbered(given.own.replace(",", " ")), given.prefix,
                      say, watch=say, timeout=given.timeout, name=given.name,
                      stall=given.stall)
    stop = threading.Event()

    def on_signal(*_: Any) -> None:
        stop.set()

    for number in (signal.SIGTERM, signal.SIGINT):
        signal.signal(number, on_signal)
    signal.signal(signal.SIGUSR1, lambda *_: say(json.dumps(machine.status())))
    machine.start()
    if given.leave:
        stop.set()

    def read() -> None:
        for line in sys.stdin:
            reply(machine, line)

    threading.Thread(target=read, daemon=True).start()
    while not stop.wait(1.0 if given.status else 0.1) and machine.thread.is_alive():
        if given.status:
            say(json.dumps(machine.status()))
    is_well = machine.thread.is_alive() and machine.close(given.patience)
    say("has left" if is_well else "has not left")
    return 0 if is_well else 1


if __name__ == "__main__":
    sys.exit(main())
