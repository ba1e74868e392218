"""A Redis of a test's own, and three machines as processes, for scenarios.py."""
import os
import shutil
import signal
import subprocess
import sys
import tempfile
import threading
import time

import redis

sys.dont_write_bytecode = True
HERE = os.path.dirname(os.path.realpath(__file__))
SOURCE = os.environ.get("RCU_REPLICA") or f"{os.path.dirname(HERE)}/src"  # (as pip installed it)
sys.path.insert(0, SOURCE)
from proxy import Proxy
from rcu_replica import streams

OWN = ("0-21", "22-42", "43-63")
LIMIT = 90  # seconds, a guard against a hang


class Failure(Exception):
    """What a test found."""


class Process:
    """A machine as a process of Python; what it printed is kept."""

    def __init__(self, words, own, source):
        self.own, self.lines, self.changed = own, [], threading.Condition()
        self.process = subprocess.Popen(
            ["/usr/bin/python3", *words], env={**os.environ, "PYTHONPATH": source}, text=True,
            stdin=subprocess.PIPE, stdout=subprocess.PIPE, stderr=subprocess.STDOUT)
        threading.Thread(target=self.read, daemon=True).start()

    def read(self):
        for line in self.process.stdout:
            with self.changed:
                self.lines.append(line.rstrip("\n"))
                self.changed.notify_all()

    def tell(self, line):
        print(line, file=self.process.stdin, flush=True)

    def has(self, words, after=0):
        words = (words,) if isinstance(words, str) else words
        return next((at for at, it in enumerate(self.lines)
                     if at >= after and any(word in it for word in words)), None)

    def wait(self, words, after=0):
        """Waits until it prints that, and returns the place of the line behind it."""
        with self.changed:
            if not self.changed.wait_for(lambda: self.has(words, after) is not None, LIMIT):
                raise Failure(f"machine {self.own} printed no '{words}': {self.lines[-5:]}")
            return self.has(words, after) + 1

    def ask(self, line, words):
        after = len(self.lines)
        self.tell(line)
        return self.wait(words, after)

    def end(self, status):
        if self.process.wait(LIMIT) != status:
            raise Failure(f"machine {self.own} ended otherwise than by {status}: {self.lines[-5:]}")


class Cluster:
    """A Redis and three machines, in a room of their own."""

    def __init__(self, source, append_only=True, via="socket", fsync="always", room=None):
        self.source, self.via, self.processes = source, via, []
        self.room = tempfile.mkdtemp()
        self.words = ["redis-server", "--port", "0", "--unixsocket", f"{self.room}/socket", "--save",
                      "", "--dir", room or self.room, "--appendonly", "yes" if append_only else "no",
                      "--appendfsync", fsync]
        self.server = redis.Redis(unix_socket_path=f"{self.room}/socket", decode_responses=True)
        self.proxy = Proxy(f"{self.room}/proxy", f"{self.room}/socket")
        self.run_redis()

    def __enter__(self):
        return self

    def __exit__(self, *_):
        for it in [*(machine.process for machine in self.processes), self.redis]:
            it.kill()
            it.wait()
        self.proxy.close()
        shutil.rmtree(self.room, ignore_errors=True)

    def run_redis(self):
        self.redis = subprocess.Popen(self.words, stdout=subprocess.DEVNULL)
        until = time.monotonic() + LIMIT
        while time.monotonic() < until:
            try:
                return self.server.ping()
            except redis.ConnectionError:
                time.sleep(0.02)
        raise Failure("Redis does not answer")

    def end_redis(self, how):
        self.redis.send_signal(how)
        self.redis.wait()

    def start(self, own, *options, via=None):
        url = f"unix://{self.room}/{via or self.via}"
        return self.run(own, "-m", "rcu_replica.command", url, "--cpus", "64", "--own", own,
                        "--timeout", "1", *options)

    def run(self, own, *words):
        self.processes.append(Process(words, own, self.source))
        return self.processes[-1]

    def machines(self):
        """The three machines of a cluster that begins, once each may open sections."""
        all_three = self.started()
        for it in all_three:
            it.wait("ended 1")
        return all_three

    def started(self):
        """Three machines, once each may open sections."""
        all_three = [self.start(own) for own in OWN]
        for it in all_three:
            it.wait("ended")
            self.enter(it, it.own.split("-")[0])
            it.ask(f"exit {it.own.split('-')[0]}", "done")
        return all_three

    @staticmethod
    def enter(machine, cpu):
        """Opens a section, as soon as the processor may."""
        until = time.monotonic() + LIMIT
        while time.monotonic() < until:
            after = len(machine.lines)
            machine.tell(f"enter {cpu}")
            with machine.changed:
                machine.changed.wait_for(
                    lambda: machine.has(("done", "refused"), after) is not None, LIMIT)
            if machine.has("done", after) is not None:
                return
            time.sleep(0.05)
        raise Failure(f"processor {cpu} may open no section")

    def top(self):
        return streams.Begin.of(self.server.xrevrange("rcu:begins", count=1)[0])

    def open_one(self, machines):
        """A section is open on processor 50, and a grace period waits for it alone. Returns its
        number, and where each machine's lines go on."""
        places = [len(it.lines) for it in machines]
        self.enter(machines[2], 50)
        machines[0].tell("begin")
        until = time.monotonic() + LIMIT
        while time.monotonic() < until:
            number = self.top().number
            if all(it.has(f"begun {number}") is not None and self.awaits(it) == "awaits 50"
                   for it in machines):
                return number, places
            time.sleep(0.02)
        raise Failure(f"others are awaited: {[it.lines[-3:] for it in machines]}")

    @staticmethod
    def awaits(machine):
        return machine.lines[machine.ask("awaits", "awaits ") - 1]

    def close_one(self, machines, number):
        """Nobody ended that grace period; the section is closed, and all end it."""
        for it in machines:
            if it.has(f"ended {number}") is not None:
                raise Failure(f"machine {it.own} ended {number} while a section was open")
        machines[2].ask("exit 50", "done")
        for it in machines:
            it.wait(f"ended {number}")
