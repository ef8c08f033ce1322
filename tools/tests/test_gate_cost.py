"""The sums of a run of the gate, its unit, and what is kept and said of it."""
import collections

from tree import Tree, kit

COSTS = "# head\nlow 10 0 5\ntop 20 4 0\n"


class GateCost(Tree):
    def setUp(self):
        super().setUp()
        self.crates("# below\nlow:\n# above\ntop: low\nmore: low\n")
        self.gate = self.script("gate_cost")
        self.gate.UNIT = {"low": 10, "top": 20, "more": 40}

    def run_of(self, rows, whole, unit=None, lines=()):
        """A run with these rows of CPU seconds, without a run."""
        run = self.gate.Run.__new__(self.gate.Run)
        run.rows = collections.defaultdict(lambda: dict.fromkeys(self.gate.KINDS, 0.0))
        for name, spent in rows.items():
            run.rows[name].update(zip(self.gate.KINDS, spent))
        run.whole, run.minutes, run.unit, run.status, run.lines = whole, 1, unit or {}, 0, [*lines]
        return run

    def test_the_factor_is_the_median_of_medians(self):
        run = self.run_of({}, 0, {"low": [12, 11, 90], "top": [20, 60, 40], "more": [40, 44, 42]})
        self.assertAlmostEqual(run.factor(), 1.2)

    def test_there_is_no_factor_without_the_whole_unit(self):
        self.assertIsNone(self.run_of({}, 0).factor())
        self.assertIsNone(self.run_of({}, 0, {"low": [10], "top": [20]}).factor())

    def test_the_scaled_sum_is_the_whole_by_the_factor(self):
        run = self.run_of({"low": (60, 0, 30)}, 6000, {"low": [20], "top": [40], "more": [80]})
        scaled, said = self.said(self.gate.put_sums, run)
        self.assertEqual(scaled, 50)
        self.assertIn("In all 100 CPU minutes", said)
        self.assertIn("the machine's factor is 2.00, and the scaled sum 50 CPU minutes", said)

    def test_the_table_has_what_no_row_has(self):
        _, said = self.said(self.gate.put_table, self.run_of({"low": (60, 0, 30), "top": (10, 5, 0)}, 120))
        for line in ["| low | 60 | - | 30 |", "| top | 10 | 5 | - |", "| in no row | 15 | | |", "| **all, CPU seconds** | 70 | 5 | 30 |"]:
            self.assertIn(line, said.split("\n"))

    def test_the_groups_have_the_dearest_crate_first(self):
        _, said = self.said(self.gate.put_groups, self.run_of({"low": (60, 0, 30), "top": (10, 5, 0), "more": (100, 0, 0)}, 0))
        self.assertIn("| Below | low 90 |\n| Above | more 100, top 15 |", said)

    def test_a_kept_proof_makes_no_whole_sum(self):
        run = self.run_of({}, 60, lines=["rt: low is kept: an earlier run\n"])
        self.assertEqual((run.kept(), run.is_whole()), ({"low"}, False))
        self.assertTrue(self.run_of({}, 60, lines=["rt: low is proved\n"]).is_whole())
        self.assertIn("The sum isn't whole: 1 proofs", self.said(self.gate.put_sums, run)[1])

    def test_keeps_what_was_made_at_the_first_speed(self):
        self.write("tools/costs.txt", COSTS)
        self.gate.keep_costs(self.run_of({"low": (60, 0, 0)}, 60, {"low": [20], "top": [40], "more": [80]}))
        self.assertEqual(kit.costs(), {"low": {"proof": 30, "tests": 0, "edits": 5}, "top": {"proof": 20, "tests": 4, "edits": 0}})

    def test_keeps_nothing_without_a_factor(self):
        self.write("tools/costs.txt", COSTS)
        self.gate.keep_costs(self.run_of({"low": (60, 0, 0)}, 60))
        self.assertEqual(self.read("tools/costs.txt"), COSTS)

    def test_judges_by_the_budget_and_by_the_gate(self):
        for scaled, budget, whole, status, wanted in [(50, 60, 60, 0, 0), (70, 60, 60, 0, 1), (None, 60, 60, 0, 0), (50, 60, 19000, 0, 1), (50, 60, 60, 3, 3)]:
            run = self.run_of({}, whole)
            run.status = status
            self.assertEqual(self.said(self.gate.judge, run, scaled, budget)[0], wanted)

    def test_counts_all_that_a_command_begins(self):
        self.assertIsNone(self.gate.seconds_of(["false"], self.root))
        inner = "import time\nwhile time.process_time() < 1: pass"
        work = f"import subprocess, sys; subprocess.run([sys.executable, '-c', {inner!r}])"
        self.assertGreaterEqual(self.gate.seconds_of(["python3", "-c", work], self.root), 1)
