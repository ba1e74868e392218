"""A machine whose readers are busy: on each of its processors a section of a millisecond follows
another one at once.

Use: busy.py URL CPUS OWN WAITS. It waits for so many grace periods, prints how long each took at
most, and goes on until its input ends; then it leaves. The package is that on the path."""
import sys
import threading
import time

from rcu_replica import Machine
from rcu_replica.streams import numbered

SECTION, LIMIT = 0.001, 60.0  # seconds of a section, and of a wait at most


def read(machine, cpu, stop):
    while not stop.is_set():
        with machine.section(cpu):
            time.sleep(SECTION)


def longest(machine, waits):
    """The seconds of the longest of so many waits. (The first one waits for all machines.)"""
    machine.synchronize()
    seconds = 0.0
    for _ in range(waits):
        begun = time.monotonic()
        machine.synchronize(LIMIT)
        seconds = max(seconds, time.monotonic() - begun)
    return seconds


def main(url, cpus, own, waits):
    stop = threading.Event()
    with Machine(url, int(cpus), numbered(own), say=print) as machine:
        readers = [threading.Thread(target=read, args=(machine, cpu, stop), daemon=True)
                   for cpu in sorted(machine.own)]
        for it in readers:
            it.start()
        print(f"waited {longest(machine, int(waits)):.3f} seconds at most", flush=True)
        sys.stdin.read()
        stop.set()
        for it in readers:
            it.join()


if __name__ == "__main__":
    main(*sys.argv[1:])
