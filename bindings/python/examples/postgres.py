"""A machine of a cluster over PostgreSQL: a table of begins, one of reports, and NOTIFY.

Use: postgres.py CPUS FIRST LAST TIMES. Its processors are FIRST to LAST of CPUS; libpq's variables
say where the server is. The machine with processor 0 replaces a row of the table configs so many
times, and deletes the old one after a grace period. All read the rows in sections.
"""
import select
import sys

import psycopg2
from rcu_replica import Replica

TABLES = """SELECT pg_advisory_xact_lock(1);
CREATE TABLE IF NOT EXISTS begins (number bigint PRIMARY KEY);
CREATE TABLE IF NOT EXISTS reports (number bigint, cpu int, PRIMARY KEY (number, cpu));
CREATE TABLE IF NOT EXISTS configs (id int PRIMARY KEY);
INSERT INTO configs VALUES (0) ON CONFLICT DO NOTHING"""


class Machine:
    def __init__(self, cpus, own):
        self.replica, self.all, self.own = Replica(cpus + 1), range(1, cpus + 1), own
        self.number, self.held, self.passed = 0, {}, set()
        self.server = psycopg2.connect("")
        self.server.autocommit = True
        self.ask(TABLES)
        self.ask("LISTEN rcu")

    def ask(self, words, *given):
        with self.server.cursor() as cursor:
            cursor.execute(words, given)
            return [it for it, in cursor.fetchall()] if cursor.description else []

    def read(self):
        """Looks in the section on each own processor, closes it, and opens the next one."""
        there = self.ask("SELECT id FROM configs ORDER BY id")
        for cpu in self.own:
            if self.held.get(cpu, there[-1]) not in there:
                sys.exit(f"processor {cpu} reads configuration {self.held[cpu]}, which is gone")
            self.passed.add(cpu)  # a moment outside of sections
            self.held[cpu] = there[-1]

    def step(self):
        """Begins, reports or ends. Returns whether a grace period has ended."""
        if not self.replica.awaited():
            if self.ask("SELECT number FROM begins WHERE number = %s", self.number + 1):
                self.number = self.replica.begin(self.all)
                self.passed.clear()  # what was before the begin does not count
            return False
        for cpu in self.passed & self.replica.awaited():
            self.ask("INSERT INTO reports VALUES (%s, %s) ON CONFLICT DO NOTHING", self.number, cpu)
            self.ask("NOTIFY rcu")
        for cpu in self.ask("SELECT cpu FROM reports WHERE number = %s", self.number):
            self.replica.report(cpu, self.number)
        if self.replica.awaited():
            select.select([self.server], [], [], 0.1)  # a notice came, or it looks again
            self.server.poll()
            return False
        self.number = self.replica.end()
        return True


def main(cpus, first, last, times):
    machine = Machine(cpus, range(first + 1, last + 2))  # (processor 0 of a replica is of none)
    for at in range(times):
        if first == 0:
            machine.ask("INSERT INTO configs VALUES (%s)", at + 1)
            machine.ask("INSERT INTO begins VALUES (%s)", machine.number + 1)
            machine.ask("NOTIFY rcu")
        while not machine.step():
            machine.read()
        if first == 0:
            machine.ask("DELETE FROM configs WHERE id = %s", at)
    print(f"{times} grace periods, the last one ended at {machine.number}")


if __name__ == "__main__":
    main(*map(int, sys.argv[1:]))
