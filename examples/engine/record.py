"""Records what transactions of any engine did, as a log for `hek history`.

    from record import Recorder

    with Recorder("log.jsonl", rows=[("x", 1), ("y", 1)]) as recorder:
        with recorder.transaction("a") as t:
            connection.begin()
            t.read("x", select("x"))
            t.update("y", 0, update("y", 0) == 1)
            connection.commit()

A transaction is a block. The call that commits is the last one in it: the transaction is `committed` once its block ends, unless
`t.aborted()` or `t.lost()` was called in it. If an exception leaves the block before one of these calls, the transaction is
`unknown`: the connection may be gone, and nobody knows whether the commit took place. So an exception by which the engine says that
it has rolled back is caught inside:

            try:
                ..
                connection.commit()
            except SerializationFailure as failure:
                connection.rollback()
                t.aborted("40001")

An operation is recorded with its answer, after the engine has given it. Or it is recorded before the engine is asked, without an
answer, and `t.answer()` adds that. Then the log also has an operation during which the connection was lost:

            t.update("y", 0)
            t.answer(update("y", 0) == 1)

Record each operation, also one that found nothing and one of a transaction that aborts, for others may have read what it wrote.
Where each write of a key has a value of its own, more anomalies can be told, and sooner. A null of SQL is a value and not an absent
row: give it a text. A process that is killed leaves no lines of the transactions that it was in.

docs/FORMATS.md, "Logs", says what the lines mean.
"""
import itertools
import json
import os
import threading
import time
from collections.abc import Callable, Iterable, Iterator
from contextlib import contextmanager
from enum import Enum
from typing import Any, Literal, Self, TypeAlias

# A key, a value or a name: a text, or a number from 0 on and below 2^64; a value may be below zero, from -2^63 on. 7 and "7" are two
# of them.
Cell: TypeAlias = int | str
Level: TypeAlias = Literal["serializable", "repeatable", "snapshot"]
Status: TypeAlias = Literal["committed", "aborted", "unknown"]
LEVELS = ("serializable", "repeatable", "snapshot")


class Missing(Enum):
    ANSWER = "the engine has not answered"


UNANSWERED = Missing.ANSWER


def cell(it: Any) -> Cell:
    """A key or a name. Refuses what a log cannot hold: numbers below zero, with a fraction or too large, booleans, None."""
    if isinstance(it, str) or (isinstance(it, int) and not isinstance(it, bool) and 0 <= it < 1 << 64):
        return it
    raise ValueError(f"{it!r} is neither a text nor a number from 0 on and below 2^64; a text can stand for it")


def valued(it: Any) -> Cell:
    """A value: what `cell` takes, or a number below zero from -2^63 on."""
    if isinstance(it, int) and not isinstance(it, bool) and -(1 << 63) <= it < 0:
        return it
    return cell(it)


def pairs(them: Iterable[Iterable[Any]]) -> list[list[Cell]]:
    return [[cell(key), valued(value)] for key, value in them]


class Transaction:
    """What a transaction did, for one thread at a time.

    `begin` and `end` are the engine's own times, numbers, for whoever knows them to set; None: not known. The `end` of a writer is
    its place among the commits, and `begin` says which commits it saw. `status` is None until the block ends.
    """

    def __init__(self, name: Cell, level: Level, session: Cell | None = None):
        if level not in LEVELS:
            raise ValueError(f"{level!r} is none of the levels {', '.join(LEVELS)}")
        self.name, self.level = cell(name), level
        self.session = None if session is None else cell(session)
        self.status: Status | None = None
        self.cause: Cell | None = None
        self.begin: int | None = None
        self.end: int | None = None
        self.at: tuple[int, int | None] | None = None
        self._operations: list[list[Any]] = []
        self._versions: dict[int, int] = {}
        self._is_asking = False

    def read(self, key: Cell, value: Cell | None | Missing = UNANSWERED) -> None:
        """Reads a key; `value` is None where the key is absent."""
        self._ask(["read", cell(key)], value)

    def write(self, key: Cell, value: Cell) -> None:
        """Sets a key, whether or not it is there. It has no answer."""
        self._ask(["write", cell(key), valued(value)], UNANSWERED)
        self._is_asking = False

    def insert(self, key: Cell, value: Cell, done: bool | Missing = UNANSWERED) -> None:
        """Adds a key; `done` is False where it is there already."""
        self._ask(["insert", cell(key), valued(value)], done)

    def update(self, key: Cell, value: Cell, done: bool | Missing = UNANSWERED) -> None:
        """Changes a key; `done` is False where it is absent."""
        self._ask(["update", cell(key), valued(value)], done)

    def delete(self, key: Cell, done: bool | Missing = UNANSWERED) -> None:
        """Removes a key; `done` is False where it is absent."""
        self._ask(["delete", cell(key)], done)

    def scan(self, bucket: int, found: Iterable[Iterable[Cell]] | Missing = UNANSWERED) -> None:
        """Reads the number keys that leave `bucket` when divided by the log's `buckets`; `found` are their pairs of key and value."""
        self._ask(["scan", cell(bucket)], found)

    def range(self, low: Cell, high: Cell, found: Iterable[Iterable[Cell]] | Missing = UNANSWERED) -> None:
        """Reads the keys from `low` on and below `high`, two numbers or two texts (by their bytes); `found` are pairs as in a scan."""
        self._ask(["range", cell(low), cell(high)], found)

    def answer(self, answer: Any) -> None:
        """The answer of the last operation, which was recorded without one."""
        if not self._is_asking:
            raise ValueError("no operation waits for an answer")
        operation = self._operations[-1]
        if operation[0] == "read":
            answer = answer if answer is None else valued(answer)
        elif operation[0] in ("scan", "range"):
            answer = pairs(answer)
        elif not isinstance(answer, bool):
            raise ValueError(f"{operation[0]} was done or was not: True or False, and not {answer!r}")
        operation.append(answer)
        self._is_asking = False

    def version(self, number: int) -> None:
        """The number of the version that the last operation wrote, where the engine tells it: those of a key rise in the order in which
        its versions came to be."""
        if not self._operations or self._operations[-1][0] in ("read", "scan", "range"):
            raise ValueError("no write has this version")
        if isinstance(number, bool) or not 0 <= number < 1 << 64:
            raise ValueError(f"{number!r} is no number of a version")
        self._versions[len(self._operations) - 1] = number

    def aborted(self, cause: Cell | None = None) -> None:
        """The engine has rolled the transaction back, for certain. A cause is kept as `x-cause`."""
        self.status, self.cause, self.end = "aborted", cause, None

    def lost(self) -> None:
        """Nobody knows whether the transaction has committed: the connection was killed, or the commit's answer was lost."""
        self.status = "unknown"

    def _ask(self, operation: list[Any], answer: Any) -> None:
        if self._is_asking:
            raise ValueError(f"{self._operations[-1]} has no answer yet")
        self._operations.append(operation)
        self._is_asking = True
        if answer is not UNANSWERED:
            self.answer(answer)

    def _close(self) -> None:
        """The block has ended without an exception."""
        if self.status is None and self._is_asking:
            raise ValueError(f"{self.name!r} has committed, and {self._operations[-1]} has no answer")
        self.status = self.status or "committed"

    def line(self) -> dict[str, Any]:
        """The transaction as an object of the log."""
        made: dict[str, Any] = {"txn": self.name, "level": self.level, "status": self.status}
        made |= {name: it for name in ("begin", "end", "at", "session") if (it := getattr(self, name)) is not None}
        ops = [[*it, {"version": self._versions[n]}] if n in self._versions else it for n, it in enumerate(self._answered())]
        return made | {"ops": ops} | ({} if self.cause is None else {"x-cause": self.cause})

    def _answered(self) -> list[list[Any]]:
        if not self._is_asking:
            return self._operations
        *before, last = self._operations
        # Where nobody knows more, null stands for whether a write was done, and for what a scan found. A read with null would have
        # found the key absent, so it is left out, as is what a transaction that aborted did not get done.
        return [*before, [*last, None]] if self.status == "unknown" and last[0] != "read" else before


class Recorder:
    """Writes a log to a file. Threads may share it, each with transactions of its own; each line is written whole, and at once.

    `rows` are the rows before all transactions, pairs of key and value; `buckets` is their number, where there are scans of buckets.

    Each line has `at`: when its block began and when it ended, by `clock`, one for all transactions; a transaction that is `unknown`
    has no second time. `hek history --order real` goes by these times. Where `clock` is None they are left out.

    With `late`, all lines are written by `close`: until then `transactions` has those that have ended, whose `begin` and `end` may
    be set, for an engine that tells its order of commits only afterwards.

    A transaction of a `session`, as a connection or a client is one, comes after those of it whose lines stand before its own. What was
    lost may commit later than the next one begins, so a client that has lost its connection goes on as another session.
    """

    def __init__(
        self,
        path: str | os.PathLike[str],
        rows: Iterable[Iterable[Cell]] = (),
        buckets: int | None = None,
        late: bool = False,
        clock: Callable[[], int] | None = time.monotonic_ns,
    ):
        self.transactions: list[Transaction] = []
        self._late, self._clock = late, clock
        self._names, self._lock = itertools.count(1), threading.Lock()
        header: dict[str, Any] = {} if buckets is None else {"buckets": buckets}
        header["rows"] = pairs(rows)
        self._file = open(path, "w", encoding="utf-8")
        self._write(header)

    @contextmanager
    def transaction(self, name: Cell | None = None, level: Level = "serializable", session: Cell | None = None) -> Iterator[Transaction]:
        """A transaction from the block's first line to its last. Its name is a number if none is given; no two have one name."""
        made = Transaction(next(self._names) if name is None else name, level, session)
        invoked = self._clock and self._clock()
        try:
            yield made
            made._close()
        except BaseException:
            made.status = made.status or "unknown"
            raise
        finally:
            if self._clock:
                made.at = invoked, None if made.status == "unknown" else self._clock()
            self._keep(made)

    def _keep(self, ended: Transaction) -> None:
        if self._late:
            self.transactions.append(ended)
        else:
            self._write(ended.line())

    def _write(self, line: dict[str, Any]) -> None:
        text = json.dumps(line, separators=(",", ":")) + "\n"
        with self._lock:
            self._file.write(text)
            self._file.flush()

    def close(self) -> None:
        """Writes what is kept, and closes the file; after that no transaction may end."""
        for it in self.transactions:
            self._write(it.line())
        self.transactions = []
        self._file.close()

    def __enter__(self) -> Self:
        return self

    def __exit__(self, *_: object) -> None:
        self.close()
