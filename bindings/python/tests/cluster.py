"""The cluster of the tests: three machines over a Redis of its own, behind a proxy with bad weather.

The command `run` beside it runs it. With --machine it is one of the machines. It needs redis-server
and python3-redis, and the library by the variable RCU_LIBRARY.
"""
import argparse
import os
import random
import subprocess
import sys
import tempfile
import time

import redis

sys.dont_write_bytecode = True
HERE = os.path.dirname(os.path.realpath(__file__))
sys.path.insert(0, os.environ.get("RCU_REPLICA") or f"{os.path.dirname(HERE)}/src")
from proxy import Proxy
from rcu_replica import Lost, Protocol, Streams
from rcu_replica.streams import Begin, connect, named, numbered

BEGINS = "rcu:begins"
CPUS = 64
OWN = (range(0, 22), range(22, 43), range(43, 64))
PERIODS = 200  # where no other number is asked for
HELD = 2                # own processors of each machine that are in a section then
SECONDS = 3               # for each grace period, a guard against a hang: it takes some 0.1
KILLED, LEFT, BACK = 60, 110, 150  # after so many grace periods
LOST, TWICE, LATE, AGAIN = 0.2, 0.2, 0.1, 0.05  # shares of messages, and of readings
OPENS, CLOSES = 0.1, 0.5  # of readers, a step
COUNTS = "looks old_sections lost twice late again".split()


def held_of(own):
    return sorted(own)[:HELD]


class Watched(Protocol):
    """A machine whose messages have bad weather, and whose readers look whether what they hold was
    freed. What they hold is the number of a configuration; a grace period's note is the number
    below which all may be freed at its end."""

    longest = 0.03

    def __init__(self, words, server, own):
        self.draws = random.Random(words.seed)
        streams = Streams(connect(words.url, 0.5), say=lambda what: None, longest_wait=0.05)
        super().__init__(streams, CPUS, own, again=0.02)
        self.server, self.last = server, 4 * words.periods + 1  # (the last one stays open)
        self.held, self.kept, self.starts = {}, [], ["0-0"]
        self.counts = dict.fromkeys(COUNTS, 0)
        self.goal = 0

    def drawn(self, share, name=None):
        came = self.draws.random() < share
        if came and name:
            self.counts[name] += 1
        return came

    # The weather

    def wants_to_begin(self):
        return self.number < 4 * self.goal - 3

    def propose_wanted(self):
        if self.wants_to_begin():
            self.propose(str(self.server.incr("config")))

    def hear(self, messages):
        came = [it for it in messages if not self.drawn(LOST, "lost")]
        came += self.kept + [it for it in came if self.drawn(TWICE, "twice")]
        self.kept = [it for it in came if self.drawn(LATE, "late")]
        self.draws.shuffle(came)
        came = [it for it in came if it not in self.kept]
        super().hear(came)

    def speak(self):
        if not self.drawn(LOST, "lost"):
            super().speak()

    def do_again(self, at_once):
        super().do_again(at_once)
        if self.drawn(AGAIN, "again"):
            self.place = self.draws.choice(self.starts[-9:])

    def begin(self):
        begun = super().begin()
        self.starts.append(self.at.before)
        return begun

    # The readers

    def act(self):
        """Some readers open a section, look, or close it. Returns what the test asks of this
        machine: how many grace periods it wants, and an order."""
        inside = sorted(self.inside)
        wish = held_of(self.own) if self.number == self.last else [
            cpu for cpu in sorted(self.own) if self.drawn(OPENS)]
        opened = [cpu for cpu in wish if self.enter(cpu)]
        config, freed, goal, order = self.server.pipeline().get("config").hvals("freed").get(
            "goal").get(f"order {min(self.own)}").execute()
        self.held.update(dict.fromkeys(opened, int(config)))
        for cpu in inside:
            self.look(cpu, max(map(int, freed), default=0), int(config))
        closed = [cpu for cpu in inside if self.drawn(CLOSES) and (
            self.number < self.last or cpu not in held_of(self.own))]
        pipeline = self.server.pipeline()
        for cpu in opened:
            pipeline.hset("open", cpu, config)
        for cpu in closed:
            pipeline.hdel("open", cpu)
        pipeline.execute()
        for cpu in closed:
            self.exit(cpu)
        return int(goal), order

    def look(self, cpu, freed, config):
        self.counts["looks"] += 1
        self.counts["old_sections"] += self.held[cpu] < config
        if self.held[cpu] < freed:
            self.early(f"processor {cpu} reads configuration {self.held[cpu]}, which was freed")

    def early(self, what):
        self.server.rpush("early", f"{what}, at number {self.number}")

    def free(self):
        """At the end of a grace period: nobody may hold what is older than its note."""
        for cpu, config in self.server.hgetall("open").items():
            if int(config) < int(self.at.note):
                self.early(f"it ended while processor {cpu} read configuration {config}")
        self.server.hset("freed", min(self.own), self.at.note)
        self.server.hset("ended", min(self.own), self.at.number)


def work(words):
    """One machine, until it has left, or the test ends."""
    server = redis.Redis(unix_socket_path=words.socket, decode_responses=True)
    own = OWN[words.machine]
    server.hdel("open", *own)  # (a reader of before is no more)
    server.hdel("ended", min(own))
    machine = Watched(words, server, own)
    while not machine.has_left():
        machine.goal, order = machine.act()
        if order == "stop":
            break
        if order == "leave" and not machine.leaving:
            machine.leave()
        if machine.leaving and machine.inside:
            server.hdel("open", *machine.inside)
            machine.inside.clear()
        if machine.step() == "ended":
            machine.free()
        if machine.number == machine.last:
            server.hset("awaits", min(own), named(machine.awaited))
    for name, count in machine.counts.items():
        server.hincrby("counts", name, count)


class Failure(Exception):
    """What the test found."""


class Cluster:
    """The test's side: the Redis, and the machines as processes."""

    def __init__(self, room, given):
        self.room, self.seed, self.periods = room, given.seed, given.periods
        self.seconds = 100 + SECONDS * self.periods
        self.until = time.monotonic() + self.seconds
        self.socket, self.workers, self.said = f"{room}/socket", {}, {}
        self.redis = subprocess.Popen(
            ["redis-server", "--port", "0", "--unixsocket", self.socket, "--save", "",
             "--dir", room], stdout=subprocess.DEVNULL)
        self.server = redis.Redis(unix_socket_path=self.socket, decode_responses=True)
        self.wait("the Redis answers", self.answers)
        self.proxy = Proxy(f"{room}/proxy", self.socket, self.seed)
        self.server.mset({"config": 1, "goal": 0})

    def answers(self):
        try:
            return self.server.ping()
        except redis.ConnectionError:
            return False

    def start(self, machine, *options):
        self.seed += 1
        words = ["--machine", machine, "--socket", self.socket, "--url", f"unix://{self.room}/proxy",
                 "--seed", self.seed, "--periods", self.periods, *options]
        self.said[machine] = open(f"{self.room}/{machine}", "a+", encoding="utf-8")
        self.workers[machine] = subprocess.Popen(
            ["/usr/bin/python3", __file__, *map(str, words)], stderr=self.said[machine])

    def look(self):
        """Raises what went wrong so far."""
        for what in self.server.lrange("early", 0, 0):
            raise Failure(f"too early: {what}")
        for machine, worker in self.workers.items():
            if worker.poll():
                self.said[machine].seek(0)
                last = (self.said[machine].read().splitlines() or ["nothing"])[-1]
                raise Failure(f"machine {machine} stopped: {last}")

    def wait(self, what, holds):
        while not holds():
            if time.monotonic() > self.until:
                raise Failure(f"not within {self.seconds} seconds: {what}")
            if self.workers:
                self.look()
            time.sleep(0.01)

    def top(self):
        found = self.server.xrevrange(BEGINS, count=1)
        begin = Begin.of(found[0]) if found else None
        return (begin.number, begin.cpus) if begin else (0, frozenset())

    def go(self, periods):
        """Lets that many grace periods begin, counted from the first one."""
        self.server.set("goal", periods)
        self.wait(f"grace period {periods} begins", lambda: self.top()[0] >= 4 * periods - 3)

    def run(self):
        for machine in range(3):
            self.start(machine)
        self.go(KILLED)
        self.kill(1)
        self.go(LEFT)
        self.server.set(f"order {min(OWN[2])}", "leave")
        self.go_until("machine 2 has left", lambda: self.workers[2].poll() == 0, LEFT)
        self.go(BACK)
        self.server.delete(f"order {min(OWN[2])}")
        self.start(2)
        self.go_until("machine 2 is back", lambda: 63 in self.top()[1], BACK)
        self.go(self.periods + 1)
        self.compare()
        for own in OWN:
            self.server.set(f"order {min(own)}", "stop")
        self.wait("all stop", lambda: all(it.poll() == 0 for it in self.workers.values()))
        self.look()

    def kill(self, machine):
        """Kills a machine in the middle of a grace period, and sees that nobody goes on without it
        for more than the one of which it had reported all."""
        self.server.set("goal", LEFT)
        time.sleep(0.05)
        self.workers[machine].kill()
        self.workers.pop(machine).wait()
        number = self.top()[0]
        time.sleep(0.5)
        if self.top()[0] > number + 4:
            raise Failure(f"the others went on without machine {machine}")
        self.start(machine)

    def go_until(self, what, holds, periods):
        """Lets one grace period after another begin until that holds."""
        while not holds():
            periods += 1
            if periods > self.periods - 10:
                raise Failure(f"not within {periods} grace periods: {what}")
            self.go(periods)
            self.wait(f"{what}, or all end grace period {periods}",
                      lambda: holds() or self.all_ended(periods))

    def all_ended(self, periods):
        ended = self.server.hgetall("ended")
        return all(int(ended.get(str(min(OWN[machine])), 0)) >= 4 * periods - 3
                   for machine, worker in self.workers.items() if worker.poll() is None)

    def compare(self):
        """In the grace period that stays open all machines await the same: the open sections."""
        held = named(cpu for own in OWN for cpu in held_of(own))
        self.wait(f"all await {held}", lambda: self.server.hvals("awaits") == [held] * len(OWN))
        ended = self.server.hgetall("ended")
        if set(ended.values()) != {str(4 * self.periods - 3)}:
            raise Failure(f"not each machine ended grace period {self.periods}: {ended}")

    def close(self):
        self.proxy.close()
        for process in [*self.workers.values(), self.redis]:
            if process.poll() is None:
                process.kill()
            process.wait()
        for file in self.said.values():
            file.close()


def why_it_fails(given):
    """What the test finds wrong, None where nothing is; and what it counted."""
    with tempfile.TemporaryDirectory() as room:
        cluster = Cluster(room, given)
        try:
            cluster.run()
            counts = {**cluster.server.hgetall("counts"), **cluster.proxy.counts}
            idle = [name for name in COUNTS if int(counts[name]) < 100]
            return (f"hardly any of {idle}" if idle else None), counts
        except Failure as found:
            return str(found), {}
        finally:
            cluster.close()


def main():
    parser = argparse.ArgumentParser()
    for name in ("--socket", "--url"):
        parser.add_argument(name)
    for name in ("--machine", "--seed"):
        parser.add_argument(name, type=int)
    parser.add_argument("--periods", type=int, default=PERIODS)
    given = parser.parse_args()
    if given.machine is not None:
        work(given)
        return 0
    why, counts = why_it_fails(given)
    print(why or ", ".join(f"{name.replace('_', ' ')}: {count}" for name, count in counts.items()))
    return 1 if why else 0


if __name__ == "__main__":
    sys.exit(main())
