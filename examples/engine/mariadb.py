#!/usr/bin/env python3
"""Runs random transactions on a private MariaDB server, and writes the history for `hek history`.

    mariadb.py LEVEL [--txns N] [--clients N] [--seed N] [--kinds K,K..] [--kills N] [--at] [--log FILE] [--hek HEK]

LEVEL is `read-uncommitted`, `read-committed`, `repeatable-read`, `snapshot` (repeatable read with innodb_snapshot_isolation) or
`serializable`, or `all`: one after another. The history goes to FILE, which is `LEVEL.jsonl` if not given; with --hek, the program
judges it. With --kills, N connections are killed during the load, and with --at each line also says when its transaction was
invoked and answered. Kinds of operations are read, update, scan, insert and delete; all if not given. It needs Debian's packages
mariadb-server and python3-pymysql, which is for Debian's Python, /usr/bin/python3. The server has its files in a folder that is
removed at the end, and listens there alone.

In the history a committed transaction that wrote has as its `end` its place in the server's binary log. The other times say how
many transactions were in that log: `begin` when it began, and the `end` of a reader right before its commit. A transaction at
repeatable read or snapshot is logged at the level `snapshot`, and its times are those of its snapshot; all others are logged at
`serializable`.
"""
import os
import random
import shutil
import subprocess
import sys
import tempfile
import threading
import time

import loads

LEVELS = {
    "read-uncommitted": "serializable",
    "read-committed": "serializable",
    "repeatable-read": "snapshot",
    "snapshot": "snapshot",
    "serializable": "serializable",
}
SETTINGS = {
    "log-bin": "bin",
    "binlog-format": "row",
    "sync-binlog": "0",
    "innodb-flush-log-at-trx-commit": "0",
    "innodb-lock-wait-timeout": "1",
    "skip-networking": "1",
}
# Seconds that the server has to start.
PATIENCE = 60
# Seconds from one killed connection to the next.
PAUSE = 0.05
DATABASE = "loads"
# The server tells all sessions' positions of snapshots by one variable: of two that ask at once, one may get the other's.
STATUS = threading.Lock()
# What InnoDB answers to a transaction that it has rolled back or that is to roll back: lock wait timeout, deadlock, record has changed.
ABORTS = {1205, 1213, 1020}
# What pymysql says where the connection was killed: closed, interrupted, killed, gone, lost; and what `kill` says where it is gone.
LOSSES = {0, 1317, 1927, 2006, 2013}
UNKNOWN_CONNECTION = 1094
# A write's answer is how many rows it found.
WRITES = {
    "insert": "insert ignore into kv values ({0}, {1})",
    "delete": "delete from kv where k = {0}",
    "update": "update kv set v = {1} where k = {0}",
}


class Server:
    """A private server, from its start to its end. MariaDB does not run as root, so root starts it as `mysql`."""

    def __init__(self):
        self.folder = tempfile.mkdtemp(prefix="hek-mariadb-")
        self.as_user = ["--user=mysql"] if os.geteuid() == 0 else []
        if self.as_user:
            shutil.chown(self.folder, "mysql")
        self.socket = f"{self.folder}/socket"

    def __enter__(self):
        common = ["--no-defaults", *self.as_user, f"--datadir={self.folder}/data"]
        words = ["mariadb-install-db", *common, "--auth-root-authentication-method=normal", "--skip-test-db"]
        ran = subprocess.run(words, stdin=subprocess.DEVNULL, capture_output=True, text=True)
        if ran.returncode:
            sys.exit(f"mariadb-install-db: {ran.stdout}{ran.stderr}")
        settings = [f"--{name}={value}" for name, value in SETTINGS.items()]
        words = ["mariadbd", *common, f"--socket={self.socket}", f"--log-error={self.folder}/log", *settings]
        self.process = subprocess.Popen(words, stdin=subprocess.DEVNULL, stdout=subprocess.DEVNULL, stderr=subprocess.DEVNULL)
        last = time.monotonic() + PATIENCE
        while not os.path.exists(self.socket):
            if self.process.poll() is not None or time.monotonic() > last:
                sys.exit("mariadbd has not started: " + open(f"{self.folder}/log", encoding="utf-8").read())
            time.sleep(0.1)
        return self

    def __exit__(self, *_):
        self.process.terminate()
        self.process.wait()
        shutil.rmtree(self.folder)


class Failed(Exception):
    """A statement failed; the text is the number of the server's fault."""


class Lost(Exception):
    """The connection is gone, and nobody knows whether the statement was done."""


class Session:
    """A connection. With FOUND_ROWS an update counts the rows that it found, also where it left them as they were."""

    def __init__(self, server, database=None):
        self.pymysql = load_pymysql()
        words = {"unix_socket": server.socket, "user": "root", "database": database, "autocommit": True}
        self.connection = self.pymysql.connect(**words, client_flag=self.pymysql.constants.CLIENT.FOUND_ROWS)
        self.cursor = self.connection.cursor()

    def count(self, sql):
        """Runs a statement: how many rows it found."""
        try:
            return self.cursor.execute(sql)
        except self.pymysql.err.MySQLError as fault:
            code = fault.args[0]
            if code in ABORTS:
                raise Failed(code) from fault
            if code in LOSSES:
                raise Lost(code) from fault
            raise

    def rows(self, sql):
        self.count(sql)
        return self.cursor.fetchall()

    def row(self, sql):
        return next(iter(self.rows(sql)), ())

    def kill(self, number):
        """Kills a connection; it may be gone by itself."""
        try:
            self.count(f"kill {number}")
        except self.pymysql.err.MySQLError as fault:
            if fault.args[0] != UNKNOWN_CONNECTION:
                raise

    def answers(self, operation):
        """The rows that an operation answers, as `loads.record` wants them."""
        kind, *numbers = operation
        if kind in WRITES:
            return [(1,)] * self.count(WRITES[kind].format(*numbers))
        return self.rows(loads.statement(operation))


def load_pymysql():
    try:
        import pymysql
        import pymysql.constants.CLIENT
    except ImportError:
        sys.exit("mariadb.py needs pymysql: Debian's package python3-pymysql, and /usr/bin/python3")
    return pymysql


class Client:
    """What a thread runs transactions with, by one connection after another."""

    def __init__(self, server, level, name):
        self.server, self.level, self.name, self.connections = server, level, name, 0
        self.connect()

    def connect(self):
        # What was cut off may commit after the next transaction has begun, so each connection is a session of its own.
        self.connections += 1
        try:
            self.session = Session(self.server, DATABASE)
            self.session.count(f"set session innodb_snapshot_isolation = {int(self.level == 'snapshot')}")
            isolation = "repeatable read" if self.level == "snapshot" else self.level.replace("-", " ")
            self.session.count(f"set session transaction isolation level {isolation}")
            # The place of what this connection wrote last.
            self.written = 0
        except Lost:
            self.connect()

    def place(self, expression):
        """The number of a transaction in the binary log, from its GTID; 0: none."""
        return int((self.session.row(f"select {expression}")[0] or "0").split("-")[-1])

    def begin(self):
        """Begins a transaction: how many are in the binary log."""
        if LEVELS[self.level] != "snapshot":
            self.session.count("begin")
            return self.place("@@global.gtid_binlog_pos")
        self.session.count("start transaction with consistent snapshot")
        with STATUS:
            status = dict(self.session.rows("show status like 'binlog_snapshot_%'"))
        return self.place(f"binlog_gtid_pos('{status['Binlog_snapshot_file']}', {status['Binlog_snapshot_position']})")

    def transaction(self, recorder, number, operations):
        with recorder.transaction(number, LEVELS[self.level], f"{self.name}, connection {self.connections}") as made:
            try:
                made.begin = made.end = 2 * self.begin() + 1
                for operation in operations:
                    loads.record(made, operation, self.session.answers)
                if LEVELS[self.level] != "snapshot":
                    made.end = 2 * self.place("@@global.gtid_binlog_pos") + 1
                self.session.count("commit")
                before, self.written = self.written, self.place("@@last_gtid")
                if self.written != before:
                    made.end = 2 * self.written
            except Failed as failed:
                made.aborted(str(failed))
                self.roll_back()
            except Lost:
                made.lost()
                made.end = None
                self.connect()
        return made

    def roll_back(self):
        try:
            self.session.count("rollback")
        except Lost:
            self.connect()


def kill(server, count, is_over):
    """Kills connections, one after another, until the load is over."""
    chief, dice = Session(server), random.Random(count)
    while count and not is_over.wait(PAUSE):
        found = chief.rows(f"select id from information_schema.processlist where db = '{DATABASE}'")
        if found:
            chief.kill(dice.choice(found)[0])
            count -= 1


def run_load(server, level, options, recorder):
    chief = Session(server)
    for sql in (f"drop database if exists {DATABASE}", f"create database {DATABASE}", f"use {DATABASE}", *loads.setup()):
        chief.count(sql)
    chief.connection.close()

    def client(name, dice, numbers):
        it = Client(server, level, name)
        return [it.transaction(recorder, number, loads.operations(dice, number, options.kinds)) for number in numbers]

    is_over = threading.Event()
    killer = threading.Thread(target=kill, args=(server, options.kills, is_over))
    killer.start()
    try:
        return loads.clients(options, client)
    finally:
        is_over.set()
        killer.join()


def main():
    parser = loads.arguments(__doc__, LEVELS)
    parser.add_argument("--kills", type=int, default=0)
    options = parser.parse_args()
    with Server() as server:
        print(f"MariaDB {Session(server).row('select version()')[0]}")
        for level in LEVELS if options.level == "all" else [options.level]:
            path = options.log or f"{level}.jsonl"
            with loads.recorder(path, options) as recorder:
                made = run_load(server, level, options, recorder)
            loads.report(level, made, path, options.hek)


if __name__ == "__main__":
    main()
