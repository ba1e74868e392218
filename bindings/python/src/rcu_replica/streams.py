"""The two streams of a cluster in Redis: all the state that there is.

What is trusted of Redis: a stream keeps what it took, in order, and takes one entry of an identity.
Whether it does is looked at with each reading: a begin has a mark that nobody else draws, and names
that of the one before it.
"""
from __future__ import annotations

import os
import secrets
import socket
from dataclasses import dataclass
from functools import partial
from typing import Any, Callable, Iterable, List, Optional, Tuple, TypeVar

import redis
from redis.backoff import ExponentialBackoff
from redis.retry import Retry

T = TypeVar("T")
# The first words of Redis where it does not take a write, or a reading, for now.
NOT_NOW = ("OOM", "MISCONF", "READONLY", "LOADING", "BUSY", "TRYAGAIN", "NOREPLICAS", "MASTERDOWN",
           "CLUSTERDOWN")
MOST = 1000  # entries that are read at once


class Lost(Exception):
    """Redis lost what it had answered: this machine ends no grace period on that."""


class Replaced(Exception):
    """Another machine speaks for a processor of this one: a section that is open here counts no
    more."""


class Stopping(Exception):
    """The machine is to stop, and waits for Redis no more."""


class NotNow(redis.ConnectionError):
    """Redis answers, and does not do it for now."""


class Wrong(Exception):
    """Redis answers what no waiting mends, as a wrong password."""


def connect(url: str, timeout: float = 5.0) -> Any:
    """A client of the Redis at redis://, rediss:// or unix://. The variables RCU_REDIS_USER and
    RCU_REDIS_PASSWORD have user and password, where the URL has none. An answer that does not come
    for so many seconds is given up, and its connection too."""
    how: Any = {"username": os.environ.get("RCU_REDIS_USER"),
                "password": os.environ.get("RCU_REDIS_PASSWORD")}
    if not url.startswith("unix:"):
        how.update(socket_connect_timeout=timeout, socket_keepalive=True)
    how = {name: value for name, value in how.items() if value}
    return redis.Redis.from_url(url, decode_responses=True, socket_timeout=timeout, **how)


def named(cpus: Iterable[int]) -> str:
    """Processors as text: `0-21 40`."""
    parts: List[List[int]] = []
    for cpu in sorted(cpus):
        if parts and parts[-1][1] == cpu - 1:
            parts[-1][1] = cpu
        else:
            parts.append([cpu, cpu])
    return " ".join(f"{first}-{last}" if first < last else f"{first}" for first, last in parts)


def numbered(text: str) -> frozenset[int]:
    """The processors of such a text."""
    ends = [part.partition("-") for part in text.split()]
    return frozenset(cpu for first, _, last in ends
                     for cpu in range(int(first), int(last or first) + 1))


@dataclass(frozen=True)
class Begin:
    """An entry of the begins: a grace period's number, its mark, whom it awaits, behind which entry
    its messages lie, what who wrote it noted, and the mark of the one before it."""

    number: int
    mark: str
    cpus: frozenset[int]
    before: str
    note: str
    last: str

    @staticmethod
    def of(entry: Any) -> Begin:
        place, row = entry
        return Begin(int(place.split("-")[0]), row["mark"], numbered(row["set"]), row["before"],
                     row["note"], row["last"])

    def row(self) -> Any:
        return {"mark": self.mark, "set": named(self.cpus), "before": self.before,
                "note": self.note, "last": self.last}


@dataclass(frozen=True)
class Message:
    """A processor's message: `report`, `depart` or `join`, with the grace period that it noted, the
    name of the machine that speaks for it, and a mark of that machine since its start."""

    kind: str
    cpu: int
    number: int
    mark: str
    name: str
    speaker: str


class Waiting(ExponentialBackoff):
    """The back-off of redis-py, which says once that it waits, and ends where the machine stops."""

    def __init__(self, say: Callable[[str], None], is_stopping: Callable[[], bool],
                 cap: float) -> None:
        super().__init__(cap, cap / 32)
        self.say, self.is_stopping, self.why = say, is_stopping, ""

    def compute(self, failures: int) -> float:
        if self.is_stopping():
            raise Stopping
        return float(super().compute(min(failures, 16)))

    def waits(self, error: Exception) -> None:
        if not self.why:
            self.why = str(error) or type(error).__name__
            self.say(f"waits for Redis: {self.why}")

    def goes_on(self) -> None:
        if self.why:
            self.why = ""
            self.say("goes on: Redis answers")


class Streams:
    """The begins and the messages of a cluster, whose names have a prefix. What one machine ships
    has its name: its host and the number of its process, if it is given none."""

    def __init__(self, server: Any, prefix: str = "rcu", say: Callable[[str], None] = print,
                 is_stopping: Callable[[], bool] = lambda: False, longest_wait: float = 1.0,
                 name: str = "") -> None:
        self.server, self.begins, self.messages = server, f"{prefix}:begins", f"{prefix}:messages"
        self.name = name or f"{socket.gethostname()}:{os.getpid()}"
        self.speaker = secrets.token_hex(8)
        self.waiting = Waiting(say, is_stopping, longest_wait)
        self.retry = Retry(self.waiting, -1)

    def attempt(self, call: Callable[[], T]) -> T:
        """What the call returns, once Redis answers it. A call that is cut off is made again, so
        each has to be one that may be made twice."""

        def do() -> T:
            try:
                return call()
            except redis.WatchError:  # another one wrote, or the connection was cut: it looks again
                return do()
            except (redis.AuthenticationError, redis.exceptions.AuthorizationError) as error:
                raise Wrong(str(error)) from error
            except redis.ResponseError as error:
                text = str(error).rpartition("caused error: ")[2]  # (so a pipeline has it)
                if text.startswith(NOT_NOW):
                    raise NotNow(text) from error
                raise

        def fail(error: Exception) -> None:
            self.server.connection_pool.disconnect()
            self.waiting.waits(error)

        answer = self.retry.call_with_retry(do, fail)
        self.waiting.goes_on()
        return answer

    # What is there

    def top(self) -> Optional[Begin]:
        """The last begin."""
        return self.one(self.server.xrevrange)

    def first(self) -> Optional[Begin]:
        """The first begin that is still there."""
        return self.one(self.server.xrange)

    def one(self, read: Callable[..., Any]) -> Optional[Begin]:
        rows = self.attempt(partial(read, self.begins, count=1))
        return Begin.of(rows[0]) if rows else None

    def news(self, at: Optional[Begin], place: str,
             until: str) -> Tuple[List[Begin], str, List[Message]]:
        """The begins from that one on, two at most; the place of the last message that was read;
        and the messages behind `place`, up to `until`."""
        number = at.number if at else 0

        def read() -> Any:
            pipeline = self.server.pipeline(transaction=False)
            pipeline.xrange(self.messages, f"({place}", until, count=MOST)
            # (read behind the messages: what lies there was not lost before they were read)
            return pipeline.xrange(self.begins, f"{number}-0", count=2).execute()

        rows, begins = self.attempt(read)
        messages = [Message(row["kind"], cpu, int(row["number"]), row["mark"], row.get("name", ""),
                            row.get("speaker", ""))
                    for _, row in rows for cpu in sorted(numbered(row["cpus"]))]
        return [Begin.of(it) for it in begins], rows[-1][0] if rows else "", messages

    # What is written

    def ship(self, kind: str, begin: Begin, cpus: Iterable[int]) -> None:
        """Ships a message of each of the processors, as one entry."""
        row: Any = {"kind": kind, "number": begin.number, "mark": begin.mark, "cpus": named(cpus),
                    "name": self.name, "speaker": self.speaker}
        self.attempt(partial(self.server.xadd, self.messages, row))

    def propose(self, at: Optional[Begin], cpus: Iterable[int], note: str) -> bool:
        """Writes the begin behind that one, which has ended, where no other one is there, and cuts
        off what lies before that one: each machine that the ended one awaited had begun it. Returns
        whether it stands there."""
        mark = secrets.token_hex(8)
        return self.attempt(lambda: self.write(at, frozenset(cpus), note, mark))

    def write(self, at: Optional[Begin], cpus: frozenset[int], note: str, mark: str) -> bool:
        number = at.number if at else 0
        with self.server.pipeline() as pipeline:
            pipeline.watch(self.begins)
            rows: Any = pipeline.xrange(self.begins, f"{number}-0", count=2)
            there = [Begin.of(it) for it in rows]
            if at and there[:1] != [at]:
                raise Lost(f"the begin {at.number} is not there any more")
            if there[1 if at else 0:]:
                return there[-1].mark == mark
            last: Any = pipeline.xrevrange(self.messages, count=1)
            begin = Begin(number + 4 if at else 1, mark, cpus, last[0][0] if last else "0-0", note,
                          at.mark if at else "")
            pipeline.multi()
            pipeline.xadd(self.begins, begin.row(), id=f"{begin.number}-0")
            if at:
                pipeline.xtrim(self.begins, minid=f"{at.number}-0", approximate=False)
                pipeline.xtrim(self.messages, minid=at.before, approximate=False)
            pipeline.execute()
        return True
