#!/usr/bin/env python3
"""Runs random transactions on a private SQLite database by threads, and writes the history for `hek history`.

    sqlite.py LEVEL [--txns N] [--clients N] [--seed N] [--kinds K,K..] [--at] [--log FILE] [--hek HEK]

LEVEL is `deferred` or `immediate` (the two kinds of `begin`, with a write-ahead log), `uncommitted` (connections that share a
cache and read what is not committed), or `all`: one after another. The history goes to FILE, which is `LEVEL.jsonl` if not
given; with --hek, the program judges it. With --at each line also says when its transaction was invoked and answered. Kinds of
operations are read, update, scan, insert and delete; all if not given.

A writer draws its `end` right before its commit, while it has the database's only write lock, so writers are in order. All
transactions are logged as serializable.
"""
import itertools
import sqlite3
import tempfile
import time

import loads

LEVELS = ("deferred", "immediate", "uncommitted")
# Seconds that a connection waits for the write lock.
PATIENCE = 0.05


class Database:
    """A database in a folder, and the clock that its transactions draw times from."""

    def __init__(self, folder, level):
        self.level, self.clock = level, itertools.count(1)
        self.address = f"file:{folder}/{level}.db" + ("?cache=shared" if level == "uncommitted" else "")
        # The cache is shared as long as one connection is open.
        self.first = self.connect()
        for sql in loads.setup():
            self.first.execute(sql)

    def connect(self):
        made = sqlite3.connect(self.address, uri=True, isolation_level=None, timeout=PATIENCE, check_same_thread=False)
        made.execute("pragma synchronous = off")
        made.execute("pragma read_uncommitted = 1" if self.level == "uncommitted" else "pragma journal_mode = wal").fetchall()
        return made

    def close(self):
        self.first.close()

    def transaction(self, recorder, name, connection, number, operations):
        with recorder.transaction(number, session=name) as made:
            try:
                connection.execute("begin immediate" if self.level == "immediate" else "begin")
                made.begin = next(self.clock)
                for operation in operations:
                    loads.record(made, operation, lambda it: connection.execute(loads.statement(it)).fetchall())
                    # Another thread may go on.
                    time.sleep(0)
                made.end = next(self.clock)
                connection.execute("commit")
            except sqlite3.OperationalError as fault:
                made.aborted(str(fault))
                if connection.in_transaction:
                    connection.execute("rollback")
        return made


def run_load(folder, level, options, recorder):
    database = Database(folder, level)

    def client(name, dice, numbers):
        connection = database.connect()
        operations = {number: loads.operations(dice, number, options.kinds) for number in numbers}
        made = [database.transaction(recorder, name, connection, number, it) for number, it in operations.items()]
        connection.close()
        return made

    made = loads.clients(options, client)
    database.close()
    return made


def main():
    options = loads.arguments(__doc__, LEVELS).parse_args()
    print(f"SQLite {sqlite3.sqlite_version}")
    with tempfile.TemporaryDirectory() as folder:
        for level in LEVELS if options.level == "all" else [options.level]:
            path = options.log or f"{level}.jsonl"
            with loads.recorder(path, options) as recorder:
                made = run_load(folder, level, options, recorder)
            loads.report(level, made, path, options.hek)


if __name__ == "__main__":
    main()
