"""Whether an edit matches, what its try came to, and what is noted."""
from tree import Tree, kit

SOURCE = "impl Cup {\n    pub fn add(&mut self) {\n        self.count += 1;\n        self.sum += 1;\n    }\n}\n\npub fn twice(n: u64) -> u64 {\n    n + n\n}\n"
FAILED = "./proofs/cup/Cup/add/Answers.antt:12:5: error: `returns`: the two types differ\nfn cups::cup::Cup::add: not proved\n"
GONE = (
    "./proofs/cup/Cup/add/Answers.antt:6:15: error: `returns`: `goal.returns`: module `Cups.Goals` has no `returns` that can be named from here\n"
    "note: src/cup.rt:2:5: it is not proved that what the function ensures holds when it returns (`returns-then`)\n"
    "fn cups::cup::Cup::add: not proved\n"
)
CALLED = "fn cups::cup::Cup::add: not proved: it calls twice\nfn cups::twice: no proof: it did not prove `returns-clause-sum` ..\n"


class Edits(Tree):
    def setUp(self):
        super().setUp()
        self.crates("cups:\n")
        self.write("crates/cups/src/cup.rt", SOURCE)
        self.edits = self.script("edits")

    def edit(self, name, text, folder="edits"):
        self.write(f"crates/cups/{folder}/{name}.edit", text)
        return self.edits.Edit("cups", folder, f"{name}.edit")

    def one(self, old, new, path="src/cup.rt"):
        return f"file: {path}\nold: {old}\nnew: {new}\n"

    def test_an_edit_matches_once(self):
        self.assertIsNone(self.edits.why_not(self.edit("right", self.one("self.count += 1;", "self.count += 2;"))))

    def test_an_edit_that_matches_twice_is_named(self):
        self.edit("twice", self.one("+= 1;", "+= 2;"))
        status, said = self.said(self.edits.match_all)
        self.assertEqual(status, 1)
        self.assertIn("crates/cups/edits/twice.edit: its old text is in src/cup.rt 2 times", said)

    def test_an_edit_that_matches_nothing_is_named(self):
        for name, text, why in [
            ("gone", self.one("self.size += 1;", "x"), "its old text is in src/cup.rt 0 times"),
            ("nowhere", self.one("x", "y", "src/saucer.rt"), "there is no src/saucer.rt"),
            ("half", "file: src/cup.rt\nnew: x\n", "a new text has no old one"),
            ("empty", "", "it replaces nothing"),
            ("odd", "files: src/cup.rt\n", "it has a line that isn't read: files: src/cup.rt"),
        ]:
            self.assertEqual(self.edits.why_not(self.edit(name, text)), why)

    def test_a_name_in_both_folders_is_named(self):
        text = self.one("self.count += 1;", "self.count += 2;")
        self.edit("same", text), self.edit("same", text, "must-fail")
        status, said = self.said(self.edits.match_all)
        self.assertEqual(status, 1)
        self.assertIn("cups/same: the gate has an edit of that name too", said)

    def test_knows_the_function_of_an_edit(self):
        edit = self.edit("add", self.one("self.count += 1;", "self.count += 2;"))
        self.assertEqual(self.edits.functions_of(edit, {}), {"Cup::add"})
        free = self.edit("free", self.one("n + n", "n"))
        self.assertEqual(self.edits.functions_of(free, {}), {"cup::twice"})
        outside = self.edit("outside", self.one("impl Cup {", "impl Cup  {"))
        self.assertIsNone(self.edits.functions_of(outside, {}))

    def test_edits_of_one_function_are_not_tried_at_once(self):
        one = self.edit("one", self.one("self.count += 1;", "self.count += 2;"))
        other = self.edit("other", self.one("self.sum += 1;", "self.sum += 2;"))
        free = self.edit("free", self.one("n + n", "n"))
        texts, chosen, others = self.edits.gathered([one, other, free])
        self.assertEqual((list(chosen), others), ([one, free], [other]))
        self.assertIn("self.count += 2;", texts["src/cup.rt"])
        self.assertIn("    n\n", texts["src/cup.rt"])

    def test_an_edit_that_takes_away_what_a_proof_cites_is_named(self):
        body = "pub fn half(n: u64) -> u64 {\n    let rest = n % 2;\n    (n - rest) / 2\n}\n"
        self.write("crates/cups/src/cup.rt", SOURCE + body)
        self.write("crates/cups/proofs/cup/half/Answers.antt", "returns c = exact rest\n")
        keeps = self.edit("keeps", self.one("(n - rest) / 2", "n / 2"))
        takes = self.edit("takes", self.one("let rest = n % 2;", "let left = n % 2;") + "old: (n - rest) / 2\nnew: (n - left) / 2\n")
        sources, proofs = kit.texts("cups", ("src",)), kit.texts("cups", ("proofs",))
        self.assertEqual(self.edits.cited_names(keeps, sources, proofs), set())
        self.assertEqual(self.edits.cited_names(takes, sources, proofs), {"rest"})

    def test_a_failed_proof_of_the_function_refuses(self):
        error = self.edits.failed_in(FAILED, "Cup::add")
        self.assertEqual(error, "add: goal returns")
        self.assertEqual(self.edits.verdict_on([error]), ("refused", error))
        self.assertIsNone(self.edits.failed_in(FAILED, "cup::twice"))

    def test_a_name_that_the_edit_took_away_refuses_nothing(self):
        error = self.edits.failed_in(GONE, "Cup::add")
        self.assertEqual(error, self.edits.GONE)
        self.assertEqual(self.edits.verdict_on([None, error]), ("no verdict", self.edits.GONE))
        self.assertEqual(self.edits.failed_in(GONE + FAILED, "Cup::add"), "add: goal returns")

    def test_a_failure_of_what_a_function_calls_settles_nothing(self):
        self.assertEqual(self.edits.failed_in(CALLED, "Cup::add"), self.edits.CALLS)
        self.assertEqual(self.edits.verdict_on([self.edits.CALLS]), (None, None))
        self.assertEqual(self.edits.failed_in(CALLED, "twice"), "twice: goal returns-clause-sum")

    def test_a_try_alone_is_judged_alike(self):
        plain = "must-fail cups/add.edit: refused, as it must be: note: .."
        only = "must-fail cups/add.edit: refused, as it must be (only because a proof file names what the edit took away, so ..): proofs/cup/.."
        self.assertEqual(self.edits.judged("refused", FAILED, plain), "refused")
        self.assertEqual(self.edits.judged("refused", GONE, plain), "no verdict")
        self.assertEqual(self.edits.judged("refused", "", only), "no verdict")
        self.assertEqual(self.edits.judged("not refused", "", "NOT REFUSED"), "not refused")
        self.assertEqual(self.edits.few_words("", only), self.edits.GONE)

    def test_an_edit_is_tried_where_it_was_refused_last(self):
        self.write("crates/cups/specs/Cups.antt", "twice n = n + n\n")
        edit = self.edit("spec", "file: specs/Cups.antt\nold: n + n\nnew: n\n")
        self.write("tools/none", "")
        tried = self.edits.Tried()
        self.assertEqual(self.edits.last_refused(edit, tried), set())
        tried.note(edit, "refused", "add: goal returns-clause-sum", "0123456789")
        self.assertEqual(self.edits.last_refused(edit, tried), {"Cup::add"})
        tried.note(edit, "refused", "twice: ensures", "0123456789")
        self.assertEqual(self.edits.last_refused(edit, tried), {"cup::twice"})
        self.assertEqual(self.edits.edited(edit), {"specs/Cups.antt": "twice n = n\n"})

    def test_what_the_gate_says_is_noted(self):
        self.edit("add", self.one("self.count += 1;", "self.count += 2;"), "must-fail")
        self.edit("free", self.one("n + n", "n"), "must-fail")
        self.write("log", "rt: must-fail cups/add.edit: refused, as it must be: x\nrt: must-fail cups/free.edit: refused, as it must be (only because a proof file names what ..): y\n")
        self.write("tools/none", "")
        self.said(self.edits.note, f"{self.root}/log")
        lines = self.edits.Tried().lines
        self.assertEqual([lines["cups/add"][0], lines["cups/free"][0]], ["refused", "no verdict"])

    def test_a_result_is_stale_once_the_sources_change(self):
        edit = self.edit("add", self.one("self.count += 1;", "self.count += 2;"))
        self.write("tools/none", "")
        tried = self.edits.Tried()
        tried.note(edit, "refused", "add: goal returns", self.edits.version_of(edit))
        self.assertTrue(tried.is_done(edit) and not tried.stale())
        self.write("crates/cups/src/cup.rt", "// a comment\n" + SOURCE)
        self.assertTrue(tried.is_done(edit))
        self.write("crates/cups/src/cup.rt", SOURCE.replace("n + n", "2 * n"))
        self.assertEqual(self.edits.Tried().stale(), {"cups/add": "it was tried over other sources"})
        self.assertEqual(self.said(self.edits.name_stale)[1], "cups/add: it was tried over other sources\n1 results, 1 stale, 0 without a verdict\n")
        self.said(self.edits.forget, False)
        self.assertEqual([*self.edits.Tried().lines], ["cups/add"])
        self.said(self.edits.forget, True)
        self.assertEqual(self.edits.Tried().lines, {})

    def test_the_result_of_an_edit_that_is_not_there_goes(self):
        self.write("tools/edits-tried.txt", "cups/old | refused | x | 0123456789\n")
        self.assertEqual(self.edits.Tried().stale(), {"cups/old": self.edits.NOT_THERE})
        self.assertEqual(self.said(self.edits.forget, False)[1], "1 results dropped, 0 kept\n")
