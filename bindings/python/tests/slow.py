"""A machine is slow: it sent its report and reads nothing, while the others end the grace period,
write the next begin, and cut off what lies before. It comes to where they stand, with each message.

Use: slow.py SOCKET. The package is that on the path."""
import sys

from rcu_replica import Protocol, Streams
from rcu_replica.streams import connect

STEPS = 100  # many times what it takes


def until(machine, done, number):
    """Lets a machine go on until it did that."""
    for _ in range(STEPS):
        if machine.step(0.001) == done and machine.number == number:
            return
    sys.exit(f"a machine has not {done} {number}: it awaits {sorted(machine.awaited)}")


def main(path):
    quick, other, slow = machines = [
        Protocol(Streams(connect(f"unix://{path}")), 6, own, again=60.0)
        for own in ((0, 1), (2, 3), (4, 5))]
    for number in (1, 5, 9, 13):
        quick.want()
        for it in machines:
            until(it, "begun", number)
        for it in machines:
            it.speak()
        for it in (quick, other):
            until(it, "ended", number)
        quick.propose()
        until(slow, "ended", number)
    print("well")


if __name__ == "__main__":
    main(sys.argv[1])
