"""What happens to a cluster of three machines, one test each: the command rcu-replica as a process,
over a Redis of the test's own, by what the machines print.

The command `run` beside it runs it, in Debian's Python. It needs redis-server and python3-redis, and
the library by the variable RCU_LIBRARY. With the name of a planted fault as its word the machines
have that fault.
"""
import concurrent.futures
import json
import os
import re
import shutil
import signal
import socket
import subprocess
import sys
import tempfile
import time

sys.dont_write_bytecode = True
from machines import HERE, LIMIT, OWN, SOURCE, Cluster, Failure
from rcu_replica import Machine, streams

PLANTED = {  # what stands in place of a line of the driver; and the test that finds it
    "believes": ("protocol.py", 'if not self.at or begins and begins[0] == self.at:',
                 'if not self.at or begins and begins[0].number == self.at.number or not begins:',
                 "redis_lost_all"),
    "believes-marks": ("protocol.py", "begins and begins[0] == self.at:",
                       "begins and begins[0].number == self.at.number:", "redis_lost_a_begin"),
    "cuts-more": ("streams.py", "minid=at.before", "minid=begin.before", "a_slow_machine"),
    "hears-no-other": ("protocol.py", "if is_other and", "if False and", "one_range_twice"),
    "opens-at-once": ("protocol.py", "may = cpu in self.let_in and not self.leaving", "may = True",
                      "a_machine_killed"),
}


def waits_and_goes_on(cluster, begins, ends):
    """While a section is open that happens to Redis until each machine says that it waits. Then each
    says that it goes on, and none ends the grace period before the section is closed."""
    machines = cluster.machines()
    number, places = cluster.open_one(machines)
    begins()
    places = [it.wait("waits for Redis", place) for it, place in zip(machines, places)]
    ends()
    for it, place in zip(machines, places):
        it.wait("goes on: Redis answers", place)
    cluster.close_one(machines, number)
    return machines


def redis_restarted(source):
    """Redis is stopped and started again, with its append-only file."""
    with Cluster(source) as cluster:
        return waits_and_goes_on(cluster, lambda: cluster.end_redis(signal.SIGTERM),
                                 cluster.run_redis)[0].lines


def redis_killed(source):
    """Redis is killed by -9 and started again, with its append-only file."""
    with Cluster(source) as cluster:
        return waits_and_goes_on(cluster, lambda: cluster.end_redis(signal.SIGKILL),
                                 cluster.run_redis)[0].lines


def redis_out_of_reach(source):
    """All connections are cut, and none is taken for a while."""
    with Cluster(source, via="proxy") as cluster:
        return waits_and_goes_on(cluster, cluster.proxy.shut,
                                 lambda: cluster.proxy.shut(False))[0].lines


def refused(machines, why, over):
    """Some machine says that Redis refuses a write, and once that is over that it goes on; and all
    go on."""
    places, until, waiting = [len(it.lines) for it in machines], time.monotonic() + LIMIT, None
    while not waiting:
        machines[0].tell("begin")
        time.sleep(0.05)
        waiting = next((it for it in zip(machines, places) if it[0].has(why, it[1])), None)
        if time.monotonic() > until:
            raise Failure(f"no machine says '{why}'")
    over()
    waiting[0].wait("goes on: Redis answers", waiting[1])
    for it in machines:
        it.ask("begin", "ended")
    return waiting[0].lines


def a_write_refused(source):
    """Redis has no memory for a write, and then it has."""
    with Cluster(source) as cluster:
        machines = cluster.machines()
        cluster.server.config_set("maxmemory-policy", "noeviction")
        cluster.server.config_set("maxmemory", 1)
        return refused(machines, "waits for Redis: OOM",
                       lambda: cluster.server.config_set("maxmemory", 0))


def a_full_disk(source):
    """The disk of the append-only file is full, and then it is not."""
    room = tempfile.mkdtemp()
    if os.geteuid() or subprocess.run(["mount", "-t", "tmpfs", "-o", "size=1m", "tmpfs", room],
                                      stderr=subprocess.DEVNULL, check=False).returncode:
        os.rmdir(room)
        return None
    try:
        with Cluster(source, fsync="everysec", room=room) as cluster:
            machines = cluster.machines()
            subprocess.run(["dd", "if=/dev/zero", f"of={room}/full", "bs=4k"], check=False,
                           stderr=subprocess.DEVNULL)
            return refused(machines, "waits for Redis: MISCONF", lambda: os.remove(f"{room}/full"))
    finally:
        subprocess.run(["umount", "-l", room], check=False)
        os.rmdir(room)


def an_answer_never_comes(source):
    """The network is cut in the middle of a write: Redis takes it, and its answer never comes."""
    with Cluster(source) as cluster:
        machines = [cluster.start(OWN[0], via="proxy"), *(cluster.start(it) for it in OWN[1:])]
        for it in machines:
            it.wait("ended 1")
        place = len(machines[0].lines)
        cluster.proxy.holds_writes = True
        machines[0].tell("begin")
        place = machines[0].wait("waits for Redis", place)
        cluster.proxy.holds_writes = False
        machines[0].wait("goes on: Redis answers", place)
        number, _ = cluster.open_one(machines)
        cluster.close_one(machines, number)
        return machines[0].lines


def a_machine_killed(source):
    """A machine is killed by -9 while a section is open elsewhere, and started anew: it opens no
    section before a grace period named it that began then, and comes to where the others stand."""
    with Cluster(source) as cluster:
        machines = cluster.machines()
        number, _ = cluster.open_one(machines)
        machines[1].process.kill()
        machines[1].process.wait()
        machines[1] = cluster.start(OWN[1])
        machines[1].wait(f"begun {number}")
        after = machines[1].ask("enter 30", "")
        if "refused" not in machines[1].lines[after - 1]:
            raise Failure("a machine started anew opens a section at once")
        cluster.close_one(machines, number)
        cluster.enter(machines[1], 30)
        return machines[1].lines


def stopped(cluster, machines, happens):
    """After that each machine says that Redis lost something, and ends by 1 with nothing ended."""
    number, _ = cluster.open_one(machines)
    places = [len(it.lines) for it in machines]
    happens(number)
    machines[2].tell("exit 50")
    for it, place in zip(machines, places):
        after = it.wait(("stops: the begin", "ended"), place)
        if "ended" in it.lines[after - 1]:
            raise Failure(f"machine {it.own} ended a grace period on what was lost")
        it.end(1)
    return machines[0].lines


def redis_lost_all(source):
    """Redis has no append-only file, and is killed by -9 and started again."""
    with Cluster(source, append_only=False) as cluster:
        def happens(_):
            cluster.end_redis(signal.SIGKILL)
            cluster.run_redis()
        return stopped(cluster, cluster.machines(), happens)


def redis_lost_a_begin(source):
    """Redis lost the last begin, and another one of its number was written that awaits nobody of
    the others."""
    with Cluster(source, append_only=False) as cluster:
        def happens(number):
            before = cluster.server.xrange("rcu:begins")
            with cluster.server.pipeline() as pipeline:
                pipeline.delete("rcu:begins")
                for place, row in before:
                    other = {**row, "mark": "other"} if place == f"{number}-0" else row
                    pipeline.xadd("rcu:begins", other, id=place)
                pipeline.execute()
        return stopped(cluster, cluster.machines(), happens)


def a_slow_machine(source):
    """What is cut off is needed by none: slow.py tells how."""
    with Cluster(source) as cluster:
        ran = subprocess.run(["/usr/bin/python3", f"{HERE}/slow.py", f"{cluster.room}/socket"],
                             env={**os.environ, "PYTHONPATH": source}, capture_output=True,
                             text=True, check=False)
        if ran.returncode:
            raise Failure((ran.stdout + ran.stderr).strip().splitlines()[-1])
        return ran.stdout.splitlines()


def a_machine_gone(source):
    """The machine with processor 0 is killed by -9 for good, and another leaves in its place."""
    with Cluster(source) as cluster:
        machines = cluster.machines()
        machines[0].process.kill()
        machines[0].process.wait()
        machines[1].tell("begin")
        heir = cluster.start(OWN[0], "--leave")
        heir.wait("has left")
        heir.end(0)
        for it in machines[1:]:
            it.ask("begin", "ended")
        if cluster.top().cpus != set(range(22, 64)):
            raise Failure(f"named are {sorted(cluster.top().cpus)}")
        return heir.lines


def leaving_and_back(source):
    """SIGTERM makes a machine leave in order, one after another, that with processor 0 first; the
    others go on without it. All come back."""
    with Cluster(source) as cluster:
        machines, rest = cluster.machines(), set(range(64))
        for it in machines:
            it.process.send_signal(signal.SIGTERM)
            it.wait("has left")
            it.end(0)
            rest -= streams.numbered(it.own)
            if cluster.top().cpus != rest:
                raise Failure(f"named are {sorted(cluster.top().cpus)}, and not {sorted(rest)}")
            for other in machines[machines.index(it) + 1:]:
                other.ask("begin", "ended")
        machines = cluster.started()
        if cluster.top().cpus != set(range(64)):
            raise Failure("who came back is not named")
        return machines[2].lines


def a_stall(source):
    """After ten seconds each machine tells once whom it waits for, by name, and since when; and
    `status` has it too."""
    with Cluster(source) as cluster:
        machines = cluster.machines()
        holder = f"{socket.gethostname()}:{machines[2].process.pid}"
        number, _ = cluster.open_one(machines)
        for it in machines:
            line = it.lines[it.wait("stall: ") - 1]
            if not re.fullmatch(rf"stall: grace period {number} has waited 1\d.\d seconds for "
                                rf"processors 50 of {holder} \(since [-\d]+ [:\d]+ UTC\)", line):
                raise Failure(f"it says '{line}', and holder is {holder}")
        after = machines[0].ask("status", "{")
        status = json.loads(machines[0].lines[after - 1])
        if status["awaited_of"] != {holder: "50"} or status["age"] < 10 or not status["running"]:
            raise Failure(f"its status is {status}")
        cluster.close_one(machines, number)
        return machines[0].lines


def busy_readers(source):
    """On each processor of three machines one short section follows another, and each grace period
    ends: busy.py tells how."""
    with Cluster(source) as cluster:
        machines = [cluster.run(own, f"{HERE}/busy.py", f"unix://{cluster.room}/socket", "12", own,
                                "20") for own in ("0-3", "4-7", "8-11")]
        return [it.lines[it.wait("waited") - 1] for it in machines]


def one_range_twice(source):
    """A machine is started with the processors of one that is there. Who hears the other stops."""
    with Cluster(source) as cluster:
        first, both = cluster.processes, [cluster.machines()[1], cluster.start(OWN[1])]
        both[1].wait(("ended", "stops: machine"))
        last = cluster.top().number + 40
        until = time.monotonic() + LIMIT
        while not any(it.has("stops: machine") is not None for it in both):
            if cluster.top().number > last or time.monotonic() > until:
                raise Failure("two machines speak for one processor, and none stops")
            first[0].tell("begin")
            time.sleep(0.02)
        return next(it.lines for it in both if it.has("stops: machine") is not None)


def two_clusters(source):
    """Two clusters share a Redis, by their prefixes; one of them has a section open."""
    with Cluster(source) as cluster:
        machines = cluster.machines()
        number, _ = cluster.open_one(machines)
        other = cluster.start("0-63", "--prefix", "other")
        other.wait("ended 1")
        other.ask("begin", "ended 5")
        cluster.close_one(machines, number)
        return other.lines


def a_service(_):
    """What a service embeds: sections, waits and deferred calls."""
    with Cluster(SOURCE) as cluster:
        url, said = f"unix://{cluster.room}/socket", []
        with Machine(url, 8, range(0, 4), say=said.append, stall=0.1) as one, Machine(
                url, 8, range(4, 8), say=said.append, name="two") as two:
            done = []
            with two.section(5), two.section(5):
                one.defer(lambda: done.append("deferred"))
                try:
                    one.synchronize(0.3)
                    raise Failure("a wait ended while a section was open")
                except TimeoutError:
                    pass
                until = time.monotonic() + LIMIT
                while not any("for processors 5 of two (since" in it for it in said):
                    if time.monotonic() > until:
                        raise Failure(f"no stall was told: {said}")
                    time.sleep(0.02)
            one.synchronize(LIMIT)
            if done != ["deferred"] or one.status()["deferred"]:
                raise Failure(f"deferred calls: {done}, {one.status()}")
            two.close()
            one.synchronize(LIMIT)
        return said


def sizes(source, periods=2000):
    """Redis stays as small as it is, over many grace periods; and a restart goes to the number at
    hand at once."""
    with Cluster(source, fsync="no") as cluster:
        url, rows = f"unix://{cluster.room}/socket", []
        with Machine(url, 64, range(64), say=print) as machine:
            for at in range(1, periods + 1):
                machine.synchronize(LIMIT)
                if at % (periods // 4) == 0:
                    length = [cluster.server.xlen(f"rcu:{it}") for it in ("begins", "messages")]
                    used = cluster.server.info("memory")["used_memory_dataset"]
                    rows.append(f"{at} grace periods: {length[0]} begins, {length[1]} messages, "
                                f"{used // 1024} KiB of Redis's data")
                    if length[0] > 3 or length[1] > 12:
                        raise Failure(rows[-1])
        begun = time.monotonic()
        again = cluster.start("0-63")
        again.wait("ended")
        rows.append(f"started anew at number {again.lines[0].split()[1]}, after "
                    f"{time.monotonic() - begun:.1f} seconds")
        return rows


TESTS = [redis_restarted, redis_killed, redis_out_of_reach, a_write_refused, a_full_disk,
         an_answer_never_comes, a_machine_killed, redis_lost_all, redis_lost_a_begin, a_slow_machine,
         a_machine_gone, one_range_twice, leaving_and_back, a_stall, busy_readers,
         two_clusters, a_service, sizes]


def outcome(test, source):
    """What a test found wrong, and what it tells."""
    try:
        told = test(source)
    except Failure as found:
        return str(found), ""
    except Exception as error:
        return f"{type(error).__name__}: {error}", ""
    if told is None:
        return None, "left out: nothing may be mounted here"
    if test is sizes:
        return None, "; ".join(told)
    words = ("waits for", "goes on", "stops:", "has left", "waited", "stall:")
    return None, "; ".join(it for it in told if any(word in it for word in words))


def planted(name, room):
    """A copy of the driver with the fault."""
    path, old, new, test = PLANTED[name]
    source = f"{room}/{name}"
    shutil.copytree(SOURCE, source)
    with open(f"{source}/rcu_replica/{path}", encoding="utf-8") as file:
        text = file.read()
    if text.count(old) != 1:
        raise Failure(f"{name}: the line of the fault is not there")
    with open(f"{source}/rcu_replica/{path}", "w", encoding="utf-8") as file:
        file.write(text.replace(old, new))
    return globals()[test], source


def main(words):
    chosen = [it for it in TESTS if not words or it.__name__ in words]
    failed = 0
    with tempfile.TemporaryDirectory() as room, concurrent.futures.ThreadPoolExecutor(5) as pool:
        runs = [(it.__name__, pool.submit(outcome, it, SOURCE), False) for it in chosen]
        for name in PLANTED:
            if not words or name in words:
                runs.append((name, pool.submit(outcome, *planted(name, room)), True))
        for name, run, has_fault in runs:
            why, told = run.result()
            is_well = bool(why) == has_fault
            failed += not is_well
            print(f"{'' if is_well else 'failed: '}{name}: {why or told or 'well'}", flush=True)
    print(f"{len(runs) - failed} passed, {failed} failed")
    return 1 if failed else 0


if __name__ == "__main__":
    sys.exit(main(sys.argv[1:]))
