"""Which crates a change touches, which see it from above, and which tests say most of it."""
from tree import Tree

WAS = "/// Adds.\npub fn add(n: u64) -> u64\n    ensures { result ≡ n + 1 }\n{\n    n + 1\n}\n"


class Quick(Tree):
    def setUp(self):
        super().setUp()
        self.crates("low:\nmid: low\ntop: mid low\ntests: low mid\n", tests="use low::a;\nuse mid::b;\nuse mid::c;\n#[test]\nfn it() {}\n")
        self.quick = self.script("quick")

    def test_files_of_proofs_and_tests_touch_their_crate(self):
        for path, crate in [
            ("crates/low/src/a.rt", "low"),
            ("crates/low/specs/A.antt", "low"),
            ("crates/low/proofs/f/Answers.antt", "low"),
            ("crates/top/stdout", "top"),
            ("crates/low/README.md", None),
            ("crates/low/must-fail/x.edit", None),
            ("crates/none/src/a.rt", None),
            ("docs/RULES.md", None),
        ]:
            self.assertEqual(self.quick.crate_of(path), crate)

    def test_bodies_and_comments_are_not_seen_from_above(self):
        self.assertEqual(self.quick.face(WAS), self.quick.face(WAS.replace("    n + 1\n", "    1 + n\n").replace("Adds.", "Adds one.")))
        for old, new in [("result ≡ n + 1", "result ≡ n + 2"), ("n: u64", "n: u32"), ("pub fn", "fn")]:
            self.assertNotEqual(self.quick.face(WAS), self.quick.face(WAS.replace(old, new)))

    def test_definitions_are_seen_from_above(self):
        was = "-- a comment\nuse A.{b}\npub c : ℕ\nc = 1\n"
        self.assertEqual(self.quick.shown("specs/C.antt", was), self.quick.shown("specs/C.antt", was.replace("a comment", "another").replace("{b}", "{d}")))
        self.assertNotEqual(self.quick.shown("specs/C.antt", was), self.quick.shown("specs/C.antt", was.replace("c = 1", "c = 2")))

    def test_users_are_the_crates_that_a_check_proves(self):
        self.assertEqual(self.quick.users(["low"]), ["mid", "top"])
        self.assertEqual(self.quick.users(["top"]), [])

    def test_takes_the_tests_that_import_a_crate_most(self):
        self.assertEqual(self.quick.tests_of("tests"), "tests")
        self.assertEqual(self.quick.tests_of("mid"), "tests")
        self.assertIsNone(self.quick.tests_of("top"))

    def test_checks_the_lowest_first_and_once(self):
        self.write("crates/top/src/main.rt", "")
        titles = [it.title for it in self.quick.steps_for(["low", "mid"], ["top"])]
        self.assertEqual([it for it in titles if it.startswith("rt check")], ["rt check in low", "rt check in mid", "rt check in top"])
        self.assertEqual(sum("the tests of tests" in it for it in titles), 1)

    def test_passes_on_past_a_step_that_fails(self):
        ran = []
        steps = [self.quick.Step(it, 1, lambda it=it: ran.append(it) or (1 if it == "b" else 0)) for it in "abc"]
        status, said = self.said(self.quick.run_all, steps)
        self.assertEqual((status, ran), (1, ["a", "b", "c"]))
        self.assertIn("FAILED: b\n2 of 3 steps passed", said)
