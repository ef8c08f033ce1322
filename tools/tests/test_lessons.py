"""The lessons, programs, anomalies and logs as HTML, and what is said beside a run."""
from tree import Tree

import lessons

LESSONS = """# Lessons

Hints for all.

## 1. A reader waits: first-lesson

In a browser: [first-lesson](play.html#first-lesson).

See step 3, steps 4 to 6 and lesson 2.

- **Start.** Nothing is done.
- **a reads 10, the second time.** It reads
  again.
- **b waits (snapshot).** Not here.
- **End (not serializable).** That was it.

After the run.

| Step | Reply | Why |
|---|---|---|
| 3 `a read 10` | `found 1` | as in second-lesson |

<details><summary>Answer</summary>

`a < b`
</details>
<!-- answer: `a < b` of: hek run -->

At a terminal: `hek run` says it,
and more.

## 2. Two texts: second-lesson, third-lesson

In a browser: [second-lesson](play.html#second-lesson), [third-lesson](play.html#third-lesson).

For both.

### second-lesson

Of the second.

### third-lesson

Of the third.

## Programs: values that are used

### no-loss: nothing is lost

In a browser: [no-loss](play.html#program-no-loss/snapshot/a.b.a.b@3).

As in first-lesson.
"""
ANOMALIES = """# Anomalies

## Each example

### bad-read: a row too early

In a browser: [bad-read](play.html#anomaly-bad-read).

As in [lesson 1](LESSONS.md#1-a-reader-waits-first-lesson) and [there](RULES.md#walk).

## After it

The end.
"""
HISTORIES = """# Logs

| Log | Of | Lines | What |
|---|---|---|---|
| `lost-update.jsonl` | P RC | 3 | for both a loss: T18 and T8 wrote over one row |
"""


class Lessons(Tree):
    def setUp(self):
        super().setUp()
        self.write("docs/LESSONS.md", LESSONS)
        self.write("docs/ANOMALIES.md", ANOMALIES)
        self.write("examples/histories/README.md", HISTORIES)
        self.write("examples/histories/lost-update.jsonl", "{}\n")
        for name in ("first-lesson", "second-lesson", "third-lesson", "programs/no-loss", "anomalies/bad-read"):
            self.write(f"examples/{name}.hek", f"# {name}\n")
        self.pages = lessons.Pages(self.root)

    def of(self, name):
        return next(it for it in self.pages.schedules if it["name"] == name)

    def prose(self, name):
        return f"{self.of(name)['intro']}\n{self.of(name)['after']}"

    def test_each_schedule_has_its_text(self):
        names = [(it["group"], it["name"]) for it in self.pages.schedules]
        self.assertEqual(names, [("Lessons", "first-lesson"), ("Lessons", "second-lesson"), ("Lessons", "third-lesson"), ("Programs", "program-no-loss"),
                                 ("Anomalies", "anomaly-bad-read"), ("Logs of engines", "log-lost-update")])
        self.assertEqual(self.of("anomaly-bad-read")["text"], "# anomalies/bad-read\n")
        self.assertEqual(self.of("first-lesson")["title"], "1. First lesson")

    def test_what_is_said_at_a_move(self):
        asides = self.of("first-lesson")["asides"]
        self.assertEqual([{key: value for key, value in it.items() if key != "html"} for it in asides], [
            {"at": "start"}, {"at": {"kind": "read", "txn": "a", "key": "10", "nth": 2}}, {"at": {"kind": "wait", "txn": "b"}, "level": "snapshot"}, {"at": "end", "verdict": "not"}])
        self.assertEqual(asides[1]["html"], "<p>It reads again.</p>")

    def test_what_is_said_before_and_after_the_run(self):
        first = self.of("first-lesson")
        self.assertIn("<h1>1. A reader waits</h1>", first["intro"])
        self.assertNotIn("After the run.", first["intro"])
        self.assertIn("After the run.", first["after"])
        self.assertNotIn("At a terminal", self.prose("first-lesson"))
        self.assertNotIn("In a browser", self.prose("first-lesson"))

    def test_steps_are_buttons(self):
        for step in (3, 4, 6):
            self.assertIn(f'<button class="step" data-step="{step}" aria-label="step {step}">{step}</button>', self.prose("first-lesson"))
        self.assertIn('<span class="reply"><code class="short">found 1</code></span>', self.prose("first-lesson"))

    def test_lessons_are_links(self):
        prose = self.prose("first-lesson")
        self.assertIn('<a href="#second-lesson">lesson 2</a>', prose)
        self.assertIn('as in <a href="#second-lesson">second-lesson</a>', prose)

    def test_answers_are_folded(self):
        self.assertIn('<details><summary>Answer</summary>\n<p><code class="short">a &lt; b</code></p>\n</details>', self.prose("first-lesson"))
        self.assertNotIn("of: hek run", self.prose("first-lesson"))

    def test_each_of_two_texts_has_its_own_words(self):
        self.assertIn("For both.", self.prose("second-lesson"))
        self.assertIn("For both.", self.prose("third-lesson"))
        self.assertIn("Of the second.", self.prose("second-lesson"))
        self.assertNotIn("Of the second.", self.prose("third-lesson"))

    def test_where_a_schedule_opens(self):
        self.assertEqual(self.of("program-no-loss")["asked"], {"level": "snapshot", "order": ["a", "b", "a", "b"]})
        self.assertIsNone(self.of("first-lesson")["asked"])

    def test_an_anomaly(self):
        prose = self.prose("anomaly-bad-read")
        self.assertIn("<h1>Bad read: a row too early</h1>", prose)
        self.assertIn('<a href="#first-lesson">lesson 1</a> and there (<code>docs/RULES.md</code>)', prose)
        self.assertNotIn("The end.", prose)

    def test_a_program(self):
        self.assertIn("<h1>No loss: nothing is lost</h1>", self.prose("program-no-loss"))
        self.assertIn('As in <a href="#first-lesson">first-lesson</a>', self.prose("program-no-loss"))

    def test_a_log(self):
        self.assertIn("PostgreSQL, asked for read committed. For both a loss: 18 and 8 wrote over one row.", self.prose("log-lost-update"))
        self.assertEqual(self.of("log-lost-update")["text"], "{}\n")

    def test_a_lead_that_names_no_move(self):
        self.write("docs/LESSONS.md", LESSONS.replace("- **b waits (snapshot).**", "- **b sleeps.**"))
        with self.assertRaises(SystemExit):
            lessons.Pages(self.root)
