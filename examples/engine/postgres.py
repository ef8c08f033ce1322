#!/usr/bin/env python3
"""Runs random transactions on a private PostgreSQL server, and writes the history for `hek history`.

    postgres.py LEVEL [--txns N] [--clients N] [--seed N] [--kinds K,K..] [--at] [--log FILE] [--hek HEK]

LEVEL is `read-committed`, `repeatable-read` or `serializable`, or `all`: one after another. The history goes to FILE, which is
`LEVEL.jsonl` if not given; with --hek, the program judges it. With --at each line also says when its transaction was invoked and
answered. Kinds of operations are read, update, scan, insert and delete; all if not given. It needs Debian's packages postgresql
and postgresql-client: initdb, pg_ctl, psql and the plugin test_decoding. The server has its files in a folder that is removed at
the end, and listens there alone.

In the history a committed transaction that wrote has as its `end` its place in the server's log of commits, and each `begin`
says how many of those commits its first snapshot saw. A transaction at repeatable read is logged at the level `snapshot`,
all others at `serializable`.
"""
import bisect
import glob
import os
import shutil
import subprocess
import sys
import tempfile
from dataclasses import dataclass

import loads
import record

LEVELS = {"read-committed": "serializable", "repeatable-read": "snapshot", "serializable": "serializable"}
# Where Debian puts initdb and pg_ctl; the newest version that is there.
PROGRAMS = max(glob.glob("/usr/lib/postgresql/*/bin"), default="/usr/local/bin")
SETTINGS = {
    "listen_addresses": "''",
    "fsync": "off",
    "wal_level": "logical",
    "deadlock_timeout": "20ms",
    "max_connections": "40",
}
DONE = "--done--"


class Failed(Exception):
    """A statement failed; the text is its SQLSTATE."""


class Server:
    """A private server, from its start to its end. PostgreSQL does not run as root, so root starts it as `postgres`."""

    def __init__(self):
        self.folder = tempfile.mkdtemp(prefix="hek-postgres-")
        self.as_user = ["runuser", "-u", "postgres", "--"] if os.geteuid() == 0 else []
        if self.as_user:
            shutil.chown(self.folder, "postgres")
        self.data = f"{self.folder}/data"

    def run(self, program, *words):
        words = [*self.as_user, f"{PROGRAMS}/{program}", *words]
        ran = subprocess.run(words, cwd=self.folder, stdin=subprocess.DEVNULL, capture_output=True, text=True)
        if ran.returncode:
            sys.exit(f"{program}: {ran.stdout}{ran.stderr}")

    def __enter__(self):
        self.run("initdb", "-D", self.data, "-A", "trust", "-U", "postgres", "--no-sync")
        options = " ".join(f"-c {name}={value}" for name, value in SETTINGS.items())
        self.run("pg_ctl", "-D", self.data, "-w", "-l", f"{self.folder}/log", "-o", f"-k {self.folder} {options}", "start")
        return self

    def __exit__(self, *_):
        self.run("pg_ctl", "-D", self.data, "-m", "immediate", "stop")
        shutil.rmtree(self.folder)


class Session:
    """A connection: one psql, which is given a statement a line."""

    def __init__(self, server):
        words = ["psql", "-X", "-q", "-A", "-t", "-F", " ", "-h", server.folder, "-U", "postgres", "postgres"]
        self.psql = subprocess.Popen(words, text=True, stdin=subprocess.PIPE, stdout=subprocess.PIPE, stderr=subprocess.STDOUT)
        self.write("\\set VERBOSITY sqlstate")

    def write(self, line):
        self.psql.stdin.write(f"{line}\n")
        self.psql.stdin.flush()

    def texts(self, sql):
        """The rows that a statement answers, each as a line."""
        self.write(f"{sql};\n\\echo {DONE}")
        lines = [line.rstrip("\n") for line in iter(self.psql.stdout.readline, f"{DONE}\n")]
        failed = [line for line in lines if line.startswith("ERROR:")]
        if failed:
            raise Failed(failed[0].split()[-1])
        return lines

    def rows(self, sql):
        return [[int(word) for word in line.split()] for line in self.texts(sql)]

    def answers(self, operation):
        return self.rows(loads.statement(operation))

    def close(self):
        self.psql.communicate()


@dataclass
class Snapshot:
    """What the server says of a transaction: which transactions its first snapshot did not see, and its own number if it wrote."""

    transaction: record.Transaction
    seen: str = "0:0:"
    number: str = ""


def transaction(recorder, name, session, level, number, operations):
    with recorder.transaction(number, LEVELS[level], name) as made:
        told = Snapshot(made)
        try:
            session.texts(f"begin isolation level {level.replace('-', ' ')}")
            told.seen = session.texts("select pg_current_snapshot()")[0]
            for operation in operations:
                loads.record(made, operation, session.answers)
            told.number = session.texts("select pg_current_xact_id_if_assigned()")[0]
            session.texts("commit")
        except Failed as failed:
            made.aborted(str(failed))
            session.texts("rollback")
    return told


def order(snapshots, commits):
    """Gives transactions their `begin` and `end`; `commits` are the server's numbers of transactions in order of commit."""
    place = {number: 2 * count for count, number in enumerate(commits, 1)}
    known = sorted(commits)
    for it in snapshots:
        _, upper, running = it.seen.split(":")
        unseen = sum(number in place for number in map(int, running.split(",")) if number) if running else 0
        begin = 2 * (bisect.bisect_left(known, int(upper)) - unseen) + 1
        it.transaction.begin = begin
        if it.transaction.status == "committed":
            it.transaction.end = place.get(int(it.number or 0), begin)


def run_load(server, level, options, recorder):
    chief = Session(server)
    chief.texts("drop table if exists kv")
    for sql in loads.setup():
        chief.texts(sql)
    chief.texts("select pg_create_logical_replication_slot('commits', 'test_decoding')")

    def client(name, dice, numbers):
        session = Session(server)
        operations = {number: loads.operations(dice, number, options.kinds) for number in numbers}
        made = [transaction(recorder, name, session, level, number, it) for number, it in operations.items()]
        session.close()
        return made

    snapshots = loads.clients(options, client)
    commits = [row[0] for row in chief.rows("select xid from pg_logical_slot_get_changes('commits', null, null) where data like 'COMMIT%'")]
    chief.texts("select pg_drop_replication_slot('commits')")
    chief.close()
    order(snapshots, commits)
    return [it.transaction for it in snapshots]


def main():
    options = loads.arguments(__doc__, LEVELS).parse_args()
    with Server() as server:
        for level in LEVELS if options.level == "all" else [options.level]:
            path = options.log or f"{level}.jsonl"
            with loads.recorder(path, options, late=True) as recorder:
                made = run_load(server, level, options, recorder)
            loads.report(level, made, path, options.hek)


if __name__ == "__main__":
    main()
