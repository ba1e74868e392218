"""A replica of the grace-period engine, by the shared object of the library for C.

It rests on the contracts of `rcu_replica_open` to `rcu_replica_close` (include/rcu/replica.h), which
are proved. It adds their call by ctypes, and exceptions in place of the numbers of faults.
"""
from __future__ import annotations

import ctypes
import os
from typing import Any, Iterable, Optional

LIBRARY = "librcu.so.0.3"  # the variable RCU_LIBRARY has another path
LAST, BAD_CPU = 1 << 62, 1
TAKEN, LAST_ONE, REPEAT, STALE = range(4)  # what a report did: `rcu_answer`


class Fault(Exception):
    """A call of the library was refused; `number` is why, as include/rcu.h has it."""

    def __init__(self, call: str, number: int) -> None:
        super().__init__(f"{call} is refused: fault {number}")
        self.number = number


class Handle(ctypes.Structure):
    """`rcu_replica_t`: nothing in it is read here."""

    _fields_ = [("at", ctypes.c_void_p)]


def load(path: Optional[str] = None) -> ctypes.CDLL:
    """The library, with the types of its calls."""
    library = ctypes.CDLL(path or os.environ.get("RCU_LIBRARY") or LIBRARY)
    handle, number = ctypes.POINTER(Handle), ctypes.c_uint64
    for name, *kinds in (
            ("open", ctypes.c_uint32, number, handle),
            ("begin", handle, ctypes.POINTER(number), ctypes.c_size_t, ctypes.POINTER(number)),
            ("report", handle, ctypes.c_uint32, number, ctypes.POINTER(ctypes.c_uint32)),
            ("depart", handle, ctypes.c_uint32),
            ("merge", handle, handle),
            ("awaited", handle, ctypes.POINTER(ctypes.c_uint32), ctypes.c_size_t,
             ctypes.POINTER(ctypes.c_uint32)),
            ("end", handle, ctypes.POINTER(number)),
            ("close", handle)):
        call = getattr(library, f"rcu_replica_{name}")
        call.argtypes, call.restype = kinds, None if name == "close" else ctypes.c_uint32
    return library


class Replica:
    """A replica of one engine, for one thread at a time."""

    def __init__(self, cpus: int, last: int = LAST, library: Optional[ctypes.CDLL] = None) -> None:
        self.cpus, self.library, self.handle = cpus, library or load(), Handle()
        self.words = (ctypes.c_uint64 * -(-cpus // 64))()
        self.room, self.count = (ctypes.c_uint32 * cpus)(), ctypes.c_uint32()
        self.number, self.answer = ctypes.c_uint64(), ctypes.c_uint32()
        self.call("open", cpus, last, self.handle)

    def call(self, name: str, *given: Any) -> None:
        refused = getattr(self.library, f"rcu_replica_{name}")(*given)
        if refused:
            raise Fault(f"rcu_replica_{name}", refused)

    def begin(self, cpus: Iterable[int]) -> int:
        """A grace period begins, and awaits these processors. Returns its number."""
        words = [0] * len(self.words)
        for cpu in cpus:
            if not 0 <= cpu < self.cpus:
                raise Fault("rcu_replica_begin", BAD_CPU)
            words[cpu // 64] |= 1 << cpu % 64
        for place, word in enumerate(words):
            self.words[place] = word
        self.call("begin", self.handle, self.words, len(words), self.number)
        return self.number.value

    def report(self, cpu: int, number: int) -> int:
        """A processor reports the number that it had noted. Returns what that did."""
        self.call("report", self.handle, cpu, number, self.answer)
        return self.answer.value

    def depart(self, cpu: int) -> None:
        """A processor departed in the running grace period."""
        self.call("depart", self.handle, cpu)

    def merge(self, other: Replica) -> None:
        """Takes in what another replica of the same grace period has heard."""
        if other is not self:
            self.call("merge", self.handle, other.handle)

    def awaited(self) -> frozenset[int]:
        """Whom the replica awaits."""
        self.call("awaited", self.handle, self.room, self.cpus, self.count)
        return frozenset(self.room[: self.count.value])

    def end(self) -> int:
        """The grace period ends. Returns the new number."""
        self.call("end", self.handle, self.number)
        return self.number.value

    def run_to(self, number: int) -> None:
        """Runs an idle replica through the numbers before this one, in which it awaits nobody."""
        begin, end = self.library.rcu_replica_begin, self.library.rcu_replica_end
        given = (self.handle, self.words, 0, self.number)
        while self.number.value < number:
            refused = begin(*given) or end(self.handle, self.number)
            if refused:
                raise Fault("a run through the numbers", refused)

    def close(self) -> None:
        """Closes the replica, which is of no use then."""
        self.library.rcu_replica_close(self.handle)

    def __del__(self) -> None:
        if hasattr(self, "library"):
            self.close()
