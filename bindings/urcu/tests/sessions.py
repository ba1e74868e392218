#!/usr/bin/env python3
"""Sessions of lttng-tools under load: eight workers create, start, rotate, stop and destroy them,
while traced programs come and go, and a live viewer lists them.

Use: bindings/urcu/tests/sessions.py INSTALLED FOLDER SECONDS [--delete]

INSTALLED is where lttng-tools with its tracer of programs was installed. It runs as root of
namespaces of its own, so that it meets no other lttng (`words`). lttng-relayd is ended first, while
sessions are sent to it. In FOLDER it leaves what the daemons said, and their cores. The last line
but one names the libraries of liburcu that they took; the last line says how many sessions were
destroyed, how many lists were made, and how each daemon ended. The status is 0 if each lived until
it was asked to end, or ended by a line of OWN: these are lttng-tools' own faults, and end it over
liburcu too. With --delete the folders of traces are deleted while sessions write there, so that
they come soon."""
import glob
import os
import random
import re
import resource
import shutil
import signal
import socket
import struct
import subprocess
import sys
import threading
import time

WORKERS, PROGRAMS = 8, 4
# How long sessions go on once lttng-relayd has ended: lttng-consumerd then gives its connections
# up, in sections of its own.
SECONDS_ALONE = 2
# Of the protocol of live viewers: its port, two commands, and the bytes of a session in a list.
VIEWER_PORT, CONNECT, LIST_SESSIONS, SESSION_BYTES = 5344, 1, 2, 339
PROGRAM = """#include <lttng/tracef.h>
#include <unistd.h>
int main(void) {
    for (unsigned i = 0;; i++) {
        lttng_ust_tracef("event %u, with some more bytes, so that its buffers are soon full", i);
        usleep(100);
    }
}
"""
# Assertions of lttng-tools 2.13.9: in a rotation whose folder could not be made; as it destroys a
# session that rotates by size; as a rotation's folder is deleted; and behind a return in a section
# (cmd_list_channels), if lttng-consumerd ends meanwhile. And functions that read after a free, as
# the address sanitizer reports: a channel that the thread of rotations frees as a failed rotation
# ends it; and, outside of any section, an index that is released.
OWN_READS = ("send_condition_command", "stream_update_index")
OWN = ("`channel->trace_chunk'", "`session->rotate_trigger'",
       "`(trace_chunk->timestamp_close).is_set'", "`!rcu_read_ongoing()'",
       *(f" in {it}" for it in OWN_READS))
# (lttng-tools links one of its libraries into its daemons and into its shared object, so globals of
# it are there twice: the sanitizer does not look for that, or no daemon would start.)
# The kinds of sessions: what creates one, and what is done with it while it runs.
KINDS = {
    "sent": (["--set-url=net://127.0.0.1"], "rotate"),
    "local": (["--output={}"], "rotate"),
    "live": (["--live=500000", "--set-url=net://127.0.0.1"], "list"),
    "snapshot": (["--snapshot", "--output={}"], "snapshot"),
}


def words(installed, folder, seconds):
    """What runs this in namespaces of its own."""
    as_root = [] if os.geteuid() == 0 else ["--user", "--map-root-user"]
    return ["unshare", *as_root, "--mount", "--net", "--pid", "--fork", "--mount-proc",
            "--kill-child", sys.executable, os.path.realpath(__file__), installed, folder,
            str(seconds)]


def libraries(processes):
    """Those of flavours that the processes have taken which live."""
    found = set()
    for it in processes:
        if os.path.exists(f"/proc/{it}/maps"):
            with open(f"/proc/{it}/maps", encoding="utf-8") as file:
                found |= set(re.findall(r"/\S*/liburcu(?!-c)\S*", file.read()))
    return sorted(found)


class Trial:
    def __init__(self, installed, folder):
        self.installed, self.folder = installed, folder
        self.over = threading.Event()
        self.env = {**os.environ, "HOME": folder, "LTTNG_HOME": folder,
                    "ASAN_OPTIONS": "detect_leaks=0:abort_on_error=1:disable_coredump=0:"
                                    "detect_odr_violation=0:verify_asan_link_order=0"}
        self.daemons, self.destroyed, self.listed = {}, 0, 0

    def start(self, name, *more):
        os.makedirs(f"{self.folder}/{name}")
        with open(f"{self.folder}/{name}/said", "w", encoding="utf-8") as said:
            self.daemons[name] = subprocess.Popen(
                [f"{self.installed}/bin/lttng-{name}", *more], cwd=f"{self.folder}/{name}",
                env=self.env, stdin=subprocess.DEVNULL, stdout=said, stderr=said)

    def goes_on(self):
        return not self.over.is_set() and self.daemons["sessiond"].poll() is None

    def lttng(self, *command):
        """Whether the command was done."""
        try:
            return subprocess.run([f"{self.installed}/bin/lttng", "-n", *command], cwd=self.folder,
                                  env=self.env, stdin=subprocess.DEVNULL, check=False, timeout=20,
                                  stdout=subprocess.DEVNULL,
                                  stderr=subprocess.DEVNULL).returncode == 0
        except subprocess.TimeoutExpired:
            return False

    def use(self, name, kind):
        """One session's life."""
        chance = random.random
        creates, then = KINDS[kind]
        if not self.lttng("create", name, *(it.format(f"{self.folder}/traces/local/{name}")
                                            for it in creates)):
            return time.sleep(0.2)
        self.lttng("enable-channel", "-u", "-s", name, "--subbuf-size=4096", "--num-subbuf=2",
                   random.choice(["--buffers-uid", "--buffers-pid"]), "c")
        self.lttng("enable-event", "-u", "-s", name, "-c", "c", "-a")
        if then == "rotate" and chance() < 0.3:
            self.lttng("enable-rotation", "-s", name,
                       random.choice(["--timer=200000", "--size=16k"]))
        self.lttng("start", name)
        for _ in range(random.randrange(1, 5)):
            time.sleep(0.15 * chance())
            self.lttng(*{"rotate": ["rotate", name], "list": ["list", name],
                         "snapshot": ["snapshot", "record", "-s", name]}[then])
            if chance() < 0.2:
                self.lttng(random.choice(["list", "clear"]), name)
        if chance() < 0.8:
            self.lttng("stop", name, *["--no-wait"] * (chance() < 0.3))
        self.destroyed += self.lttng("destroy", name, *["--no-wait"] * (chance() < 0.4))

    def work(self, worker):
        number = 0
        while self.goes_on():
            number += 1
            self.use(f"s{worker}-{number}", random.choice(["sent", "sent", *KINDS]))

    def run_programs(self):
        programs = []
        while self.goes_on():
            while len(programs) < PROGRAMS:
                programs.append(subprocess.Popen([f"{self.folder}/program"], env=self.env))
            self.over.wait(2 * random.random())
            gone = programs.pop(random.randrange(len(programs)))
            gone.kill()
            gone.wait()
        for it in programs:
            it.kill()

    def list_often(self):
        """Lists the sessions of lttng-relayd, as a live viewer does."""
        while self.goes_on():
            try:
                with socket.create_connection(("127.0.0.1", VIEWER_PORT), 20) as viewer, \
                        viewer.makefile("rb") as said:
                    self.list_by(viewer, said)
            except (OSError, struct.error):  # (it has no port yet, or has ended)
                self.over.wait(0.2)

    def list_by(self, viewer, said):
        viewer.sendall(struct.pack(">Q2I", 20, CONNECT, 0) + struct.pack(">Q3I", 0, 2, 13, 1))
        said.read(20)
        while self.goes_on():
            viewer.sendall(struct.pack(">Q2I", 0, LIST_SESSIONS, 0))
            said.read(SESSION_BYTES * struct.unpack(">I", said.read(4))[0])
            self.listed += 1

    def delete_folders(self):
        while self.goes_on():
            self.over.wait(0.5 + random.random())
            for it in glob.glob(f"{self.folder}/traces/*/*"):
                shutil.rmtree(it, True)

    def end(self, name):
        """Whether the daemon ended well, and how. If a client has gone, lttng-sessiond may wait for
        that one's session for ever, over liburcu too."""
        daemon = self.daemons[name]
        daemon.terminate()
        try:
            daemon.wait(20)
        except subprocess.TimeoutExpired:
            daemon.kill()
            daemon.wait()
        with open(f"{self.folder}/{name}/said", encoding="utf-8", errors="replace") as file:
            found = [it for it in file.read().splitlines()
                     if re.search("urcu over rcu|SUMMARY: AddressSanitizer|Assertion", it)]
        own = found and all(any(it in line for it in OWN) for line in found)
        ends = (0, -signal.SIGKILL, *[-signal.SIGABRT] * bool(own))
        return daemon.returncode in ends and (own or not found), \
            f"{name}: status {daemon.returncode} {' '.join(found[:3])}"


def main():
    installed, folder, seconds = sys.argv[1], sys.argv[2], float(sys.argv[3])
    for it in ("/run", "/dev/shm"):
        subprocess.run(["mount", "-t", "tmpfs", "tmpfs", it], check=True)
    subprocess.run(["ip", "link", "set", "lo", "up"], check=True)
    resource.setrlimit(resource.RLIMIT_CORE, (resource.RLIM_INFINITY,) * 2)
    shutil.rmtree(folder, True)
    os.makedirs(f"{folder}/traces/local")
    os.makedirs("/run/lttng")
    subprocess.run(["cc", "-xc", "-", "-o", f"{folder}/program", "-llttng-ust", "-ldl"], check=True,
                   input=PROGRAM, encoding="utf-8")
    trial = Trial(installed, folder)
    trial.start("relayd", "-o", f"{folder}/traces/relayed")
    trial.start("sessiond", "--no-kernel")
    time.sleep(3)
    threads = [threading.Thread(target=it) for it in (
        trial.run_programs, trial.list_often, *[trial.delete_folders] * ("--delete" in sys.argv))]
    threads += [threading.Thread(target=trial.work, args=(it,)) for it in range(WORKERS)]
    for it in threads:
        it.start()
    taken = libraries(it.pid for it in trial.daemons.values())
    until = time.monotonic() + seconds
    while time.monotonic() < until and trial.goes_on():
        time.sleep(0.1)
    ends = [trial.end("relayd")]
    time.sleep(SECONDS_ALONE)
    trial.over.set()
    for it in threads:
        it.join()
    ends.append(trial.end("sessiond"))
    shutil.rmtree(f"{folder}/traces")
    print("takes", *taken)
    print(f"{trial.destroyed} sessions, {trial.listed} lists; "
          f"{'; '.join(said for _, said in ends)}")
    return 0 if all(well for well, _ in ends) else 1


if __name__ == "__main__":
    sys.exit(main())
