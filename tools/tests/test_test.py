"""What tools/test reads of the runs of programs, tests and groups, and what it counts."""
from tree import Tree, kit

TESTS = """tests: 3
test a::right ... ok
test a::wrong ... FAILED
    assertion `left == right` failed
      left: 1
     right: 2
test a::panics ... ok - should panic
test result: FAILED. 2 passed; 1 failed; 0 ignored; 0 filtered out
"""


class Counts(Tree):
    def setUp(self):
        super().setUp()
        self.test = self.script("test")

    def counts(self, result):
        return result.passed, result.failed

    def test_tests_count_by_their_lines(self):
        result = self.test.read_tests(101, TESTS)
        self.assertEqual(self.counts(result), (2, 1))
        self.assertEqual(result.said.split("\n")[:2], ["test a::wrong ... FAILED", "    assertion `left == right` failed"])
        self.assertNotIn("a::right", result.said)
        self.assertEqual(self.counts(self.test.read_tests(0, TESTS.replace("FAILED", "ok"))), (3, 0))

    def test_tests_whose_lines_and_status_differ_failed(self):
        self.assertEqual(self.counts(self.test.read_tests(0, TESTS)), (0, 1))
        self.assertEqual(self.counts(self.test.read_tests(101, "the program did not list its tests\n")), (0, 1))

    def test_examples_count_by_the_last_line(self):
        self.assertEqual(self.counts(self.test.read_examples(0, "304 examples compared, 2 fences left out, 0 differ\n")), (304, 0))
        self.assertEqual(self.counts(self.test.read_examples(1, "README.md:3: $ hek\n304 examples compared, 2 fences left out, 1 differ\n")), (303, 1))
        self.assertEqual(self.counts(self.test.read_examples(1, "Traceback\n")), (0, 1))

    def test_what_is_left_out_whole_counts_as_nothing_and_is_said(self):
        result = self.test.read_beside(0, "Left out: there is no Node\n")
        self.assertEqual((*self.counts(result), result.lines()), (0, 0, ["    Left out: there is no Node"]))
        self.assertEqual(self.counts(self.test.read_beside(0, "1 examples compared, 0 fences left out, 0 differ\n")), (1, 0))
        self.assertEqual(self.counts(self.test.read_beside(1, "Left out: there is no Node\n")), (0, 1))

    def test_units_count_as_unittest_says(self):
        self.assertEqual(self.counts(self.test.read_units(0, "Ran 24 tests in 0.7s\n\nOK\n")), (24, 0))
        self.assertEqual(self.counts(self.test.read_units(1, "Ran 24 tests in 0.7s\n\nFAILED (failures=2, errors=1)\n")), (21, 3))
        self.assertEqual(self.counts(self.test.read_units(1, "No module\n")), (0, 1))

    def test_a_program_prints_what_is_stored(self):
        self.crates("prog:\n")
        self.write("crates/prog/src/main.rt", "")
        self.write("crates/prog/stdout", "one\ntwo\n")
        self.forget()
        crate = kit.crates()["prog"]
        self.assertEqual(self.counts(self.test.read_program(crate, 0, b"one\ntwo\n", b"")), (1, 0))
        result = self.test.read_program(crate, 0, b"one\n2\n", b"said\n")
        self.assertEqual(self.counts(result), (0, 1))
        self.assertIn("-two\n+2", result.said)
        self.assertIn("It ended with 1, and not with 0.", self.test.read_program(crate, 1, b"one\ntwo\n", b"").said)
        self.write("crates/prog/status", "1\n")
        self.assertEqual(self.counts(self.test.read_program(crate, 1, b"one\ntwo\n", b"")), (1, 0))

    def test_a_program_that_doesn_t_end_is_stopped(self):
        status, _, complained = self.test.ended(["sleep", "60"], 0.2, self.root)
        self.assertIsNone(status)
        self.assertIn(b"It had not ended after 0.2 seconds.", complained)


class Runs(Tree):
    def setUp(self):
        super().setUp()
        self.crates("low:\nbig: low\nhek: low\ntests: low\n", low="x" * 50, big="x" * 500, tests="#[test]\nfn it() {}\n")
        for name in ("big", "hek"):
            self.write(f"crates/{name}/src/main.rt", "x" * len(name))
            self.write(f"crates/{name}/stdout", "")
        self.forget()
        self.test = self.script("test")

    def test_finds_programs_and_tests_by_looking(self):
        self.assertEqual(self.test.tried_crates(), ["big", "hek", "tests"])

    def test_builds_the_longest_first_and_hek_for_its_groups(self):
        found = self.test.builds(["big", "tests", "examples"])
        self.assertEqual([(name, kind, [it for it, _ in calls]) for name, kind, calls in found][0], ("big", kit.PROGRAM, ["big"]))
        self.assertEqual({name: [it for it, _ in calls] for name, _, calls in found}, {"big": ["big"], "hek": ["examples"], "tests": ["tests"]})
        self.assertEqual(self.test.builds(["references"]), [])

    def test_the_last_line_counts_what_ran(self):
        self.test.GROUPS = {"good": (["true"], self.test.read_status), "bad": (["sh", "-c", "echo why; exit 1"], self.test.read_status)}
        status, said = self.said(self.test.run_all, ["good"], 1)
        self.assertEqual((status, said.split("\n")[-2]), (0, "1 passed, 0 failed"))
        status, said = self.said(self.test.run_all, ["good", "bad"], 2)
        self.assertEqual((status, said.split("\n")[-2]), (1, "1 passed, 1 failed"))
        self.assertRegex(said, r"bad: 0 passed, 1 failed, \d+ s\n    why\n")

    def test_what_is_not_built_failed(self):
        def build(*_, **__):
            raise kit.NotBuilt("big doesn't compile:\nwhy")

        self.test.build = build
        whole = self.test.Whole()
        _, said = self.said(self.test.try_built, whole, "big", kit.PROGRAM, [("big", None), ("examples", None)], [])
        self.assertEqual((whole.passed, whole.failed), (0, 2))
        self.assertIn("    big isn't built: big doesn't compile:\n    why\n", said)
