"""What the recorder of examples/engine writes: lines, answers, statuses, times."""
import itertools
import json
import os
import sys
import threading

from tree import TOOLS, Tree

sys.path.insert(0, f"{os.path.dirname(TOOLS)}/examples/engine")

from record import Recorder


class Lost(Exception):
    pass


class Logs(Tree):
    def recorder(self, **words):
        return Recorder(f"{self.root}/log.jsonl", **{"clock": itertools.count(1).__next__} | words)

    def lines(self):
        return [json.loads(it) for it in self.read("log.jsonl").splitlines()]

    def recorded(self, run, **words):
        """The line of a transaction, which `run` is given."""
        with self.recorder(**words) as recorder, recorder.transaction("a") as t:
            run(t)
        return self.lines()[1]

    def test_the_first_line_has_rows_and_buckets(self):
        self.recorder(rows=[("x", 1), ("y", 2)]).close()
        self.assertEqual(self.read("log.jsonl"), '{"rows":[["x",1],["y",2]]}\n')
        self.recorder(buckets=4).close()
        self.assertEqual(self.lines(), [{"buckets": 4, "rows": []}])

    def test_each_operation_with_its_answer(self):
        def run(t):
            t.read("x", 1)
            t.read("y", None)
            t.write("x", 2)
            t.insert("x", 3, False)
            t.update("x", 4, True)
            t.delete("y", False)
            t.scan(1, [(5, 50)])
            t.range("a", "z", (it for it in [["x", 4]]))

        ops = [["read", "x", 1], ["read", "y", None], ["write", "x", 2], ["insert", "x", 3, False], ["update", "x", 4, True]]
        ops += [["delete", "y", False], ["scan", 1, [[5, 50]]], ["range", "a", "z", [["x", 4]]]]
        wanted = {"txn": "a", "level": "serializable", "status": "committed", "at": [1, 2], "ops": ops}
        self.assertEqual(self.recorded(run), wanted)

    def test_an_answer_may_come_later(self):
        def run(t):
            t.update("x", 2)
            t.answer(True)
            t.read("x")
            t.answer(None)

        self.assertEqual(self.recorded(run)["ops"], [["update", "x", 2, True], ["read", "x", None]])

    def test_without_an_answer_an_operation_is_the_last_of_an_unknown_transaction(self):
        for ask, wanted in (
            (lambda t: t.update("x", 2), [["write", "y", 1], ["update", "x", 2, None]]),
            (lambda t: t.scan(3), [["write", "y", 1], ["scan", 3, None]]),
            (lambda t: t.read("x"), [["write", "y", 1]]),
        ):
            def run(t):
                t.write("y", 1)
                ask(t)
                t.lost()

            made = self.recorded(run)
            self.assertEqual((made["status"], made["ops"], made["at"]), ("unknown", wanted, [1, None]))

    def test_what_an_aborted_transaction_was_not_answered_is_left_out(self):
        def run(t):
            t.begin, t.end = 1, 3
            t.update("y", 1, True)
            t.update("x", 2)
            t.aborted("40001")

        made = self.recorded(run, clock=None)
        wanted = {"txn": "a", "level": "serializable", "status": "aborted", "begin": 1, "ops": [["update", "y", 1, True]], "x-cause": "40001"}
        self.assertEqual(made, wanted)

    def test_an_exception_leaves_an_unknown_transaction(self):
        with self.recorder() as recorder:
            for is_aborted in (False, True):
                with self.assertRaises(Lost), recorder.transaction() as t:
                    if is_aborted:
                        t.aborted()
                    raise Lost
        self.assertEqual([(it["txn"], it["status"], it["at"]) for it in self.lines()[1:]], [(1, "unknown", [1, None]), (2, "aborted", [2, 3])])

    def test_a_committed_transaction_has_all_its_answers(self):
        with self.assertRaises(ValueError):
            self.recorded(lambda t: t.delete("x"))
        self.assertEqual(self.lines()[1]["status"], "unknown")

    def test_refuses_what_a_log_can_t_hold(self):
        def two(t):
            t.update("x", 1)
            t.read("x", 1)

        wrong = [two, lambda t: t.read(1.5, 1), lambda t: t.read(-1, 1), lambda t: t.write("x", None), lambda t: t.write("x", True)]
        wrong += [lambda t: t.update("x", 1, 1), lambda t: t.scan(0, [(1, 1 << 64)]), lambda t: t.answer(True)]
        for run in wrong:
            with self.assertRaises(ValueError):
                self.recorded(run)
        with self.recorder() as recorder, self.assertRaises(ValueError), recorder.transaction("a", level="snapshots"):
            pass

    def test_a_transaction_may_be_in_a_session(self):
        with self.recorder(clock=None) as recorder:
            for session in ("client 1", 2, None):
                with recorder.transaction(session=session):
                    pass
        self.assertEqual([it.get("session") for it in self.lines()[1:]], ["client 1", 2, None])

    def test_a_write_may_have_a_version(self):
        def run(t):
            t.write("x", 1)
            t.version(3)
            t.update("y", 2, True)
            t.version(1)
            t.read("x", 1)

        self.assertEqual(self.recorded(run)["ops"], [["write", "x", 1, {"version": 3}], ["update", "y", 2, True, {"version": 1}], ["read", "x", 1]])

    def test_only_a_write_has_a_version(self):
        for wrong in (lambda t: t.version(1), lambda t: (t.read("x", 1), t.version(1)), lambda t: (t.write("x", 1), t.version(-1))):
            with self.assertRaises(ValueError):
                self.recorded(wrong)

    def test_values_may_be_below_zero(self):
        def run(t):
            t.read("x", -(1 << 63))
            t.update("x", -1, True)
            t.scan(0, [(1, -2)])

        self.recorded(run)
        self.assertEqual(self.lines()[1]["ops"], [["read", "x", -(1 << 63)], ["update", "x", -1, True], ["scan", 0, [[1, -2]]]])
        for wrong in (lambda t: t.read("x", -(1 << 63) - 1), lambda t: t.update(-1, 1, True), lambda t: t.scan(0, [(-1, 1)])):
            with self.assertRaises(ValueError):
                self.recorded(wrong)

    def test_times_may_be_told_late(self):
        with self.recorder(late=True, clock=None) as recorder:
            for name in "ab":
                with recorder.transaction(name, level="snapshot"):
                    pass
            self.assertEqual(self.lines(), [{"rows": []}])
            for count, it in enumerate(recorder.transactions, 1):
                it.begin, it.end = count, count + 1
        self.assertEqual([(it["txn"], it["begin"], it["end"]) for it in self.lines()[1:]], [("a", 1, 2), ("b", 2, 3)])

    def test_threads_write_whole_lines(self):
        def run(recorder):
            for _ in range(20):
                with recorder.transaction() as t:
                    t.range("a", "b", [("a" * 100, 1)] * 20)

        with self.recorder() as recorder:
            threads = [threading.Thread(target=run, args=(recorder,)) for _ in range(6)]
            for it in threads:
                it.start()
            for it in threads:
                it.join()
        self.assertEqual(sorted(it["txn"] for it in self.lines()[1:]), list(range(1, 121)))
