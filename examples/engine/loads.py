"""What the loads of postgres.py, mariadb.py and sqlite.py share: random transactions on one table in SQL, and the log of them.

The table `kv` has a number `k`, the key, and a number `v`. A bucket is all keys with the same remainder.
"""
import argparse
import random
import subprocess
import time
from collections import Counter
from concurrent.futures import ThreadPoolExecutor

from record import Recorder

KEYS, BUCKETS = 16, 4
# Below 10, where the values of transactions begin.
ROWS = [[key, key // 2 + 1] for key in range(0, KEYS, 2)]
MOST_OPERATIONS = 4
# The kinds of operations, and how often each comes.
KINDS = {"read": 9, "update": 6, "scan": 2, "insert": 2, "delete": 1}


def operations(dice, number, kinds):
    """The operations of a transaction, as in its line of the history but without answers. Each value is written once."""
    made, keys = [], []
    for place in range(dice.randint(1, MOST_OPERATIONS)):
        # Often a key again, so that there are reads before writes.
        key = dice.choice(keys) if keys and dice.random() < 0.35 else dice.randrange(KEYS)
        keys.append(key)
        value = 10 * number + place
        kind = dice.choices(kinds, [KINDS[it] for it in kinds])[0]
        made.append({
            "read": ("read", key),
            "update": ("update", key, value),
            "scan": ("scan", key % BUCKETS),
            "insert": ("insert", key, value),
            "delete": ("delete", key),
        }[kind])
    return made


def statement(operation):
    """The operation in SQL. A write answers a row if it was done."""
    kind, *numbers = operation
    return {
        "read": "select v from kv where k = {0}",
        "scan": "select k, v from kv where k % {buckets} = {0} order by k",
        "insert": "insert into kv values ({0}, {1}) on conflict do nothing returning 1",
        "delete": "delete from kv where k = {0} returning 1",
        "update": "update kv set v = {1} where k = {0} returning 1",
    }[kind].format(*numbers, buckets=BUCKETS)


def record(transaction, operation, rows_of):
    """Runs an operation, and records it with its answer; `rows_of` gives the rows that it is answered."""
    kind, *words = operation
    getattr(transaction, kind)(*words)
    rows = rows_of(operation)
    transaction.answer({"read": rows[0][0] if rows else None, "scan": rows}.get(kind, bool(rows)))


def arguments(about, levels):
    """What each load is given; `about` is its help."""
    parser = argparse.ArgumentParser(description=about, formatter_class=argparse.RawDescriptionHelpFormatter)
    parser.add_argument("level", choices=[*levels, "all"])
    parser.add_argument("--txns", type=int, default=3000)
    parser.add_argument("--clients", type=int, default=6)
    parser.add_argument("--seed", type=int, default=1)
    parser.add_argument("--kinds", type=lambda text: text.split(","), default=[*KINDS])
    parser.add_argument("--at", action="store_true")
    parser.add_argument("--log")
    parser.add_argument("--hek")
    return parser


def clients(options, run):
    """Runs each client in a thread; `run` is given its name, its dice and the numbers of its transactions."""
    each = options.txns // options.clients

    def client(number):
        numbers = range(number * each + 1, (number + 1) * each + 1)
        return run(f"client {number + 1}", random.Random(f"{options.seed} {number}"), numbers)

    with ThreadPoolExecutor(options.clients) as pool:
        return [it for made in pool.map(client, range(options.clients)) for it in made]


def setup():
    rows = ", ".join(f"({key}, {value})" for key, value in ROWS)
    return ["create table kv (k bigint primary key, v bigint)", f"insert into kv values {rows}"]


def recorder(path, options, **words):
    return Recorder(path, rows=ROWS, buckets=BUCKETS, clock=time.monotonic_ns if options.at else None, **words)


def report(name, transactions, path, hek):
    """Prints how the transactions ended, and what `hek history` says if there is a program."""
    status = Counter(it.status for it in transactions)
    causes = Counter(str(it.cause) for it in transactions if it.status == "aborted")
    counts = "".join(f", {count} aborted by {cause}" for cause, count in sorted(causes.items()))
    counts += f", {status['unknown']} unknown" if status["unknown"] else ""
    print(f"{name}: {status['committed']} committed{counts}", flush=True)
    if hek:
        subprocess.run([hek, "history", path])
