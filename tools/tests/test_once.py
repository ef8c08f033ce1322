"""Tables of options that are made from the rows of the commands, and what stands in a second source."""
from tree import Tree

SHARED = '''pub struct Row {}

pub const FILE: Argument =
    given!("FILE" => Form::Placed(Times::One, Value::File), "a schedule");

pub const LEVEL: Argument =
    given!("level" => Form::Valued("L", Value::Words("level", &["serializable", "snapshot"], &[])), "takes all at a level");
'''
ROWS = r'''const RUN: &Row = &Row {
    name: "run",
    about: "Runs",
    example: r"Example:",
    arguments: &[
        FILE,
        LEVEL,
        given!("state" => Form::Flag, "prints the \"state\""),
        given!("moves" => Form::Choice(&["all", "few"]), "prints moves; =few prints few"),
        given!("turns" => Form::Needed("N", Value::Number("a number", 0, ANY)), "how many turns"),
        given!("output" => Form::Output, "writes a file"),
        given!("MORE" => Form::Placed(Times::Any, Value::File), "with --moves: more files"),
    ],
    rivals: &[
        Others("moves", &["state", "level"]),
    ],
    needs: &[Others("MORE", &["moves"]), Others("output", &["state"])],
    asks: Asks::Never,
};

const SUM: &Row = &Row {
    name: "sum",
    arguments: &[
        FILE,
        given!("add" => Form::Flag, "adds"),
        given!("a" => Form::Flag, "a"),
        given!("b" => Form::Flag, "b"),
        given!("c" => Form::Flag, "c"),
        given!("d" => Form::Flag, "d"),
        given!("e" => Form::Flag, "e"),
    ],
    rivals: &[
        Others("add", &["a", "b", "c", "d", "e"]),
    ],
    needs: &[],
    asks: Asks::Never,
};
'''
RUN = """| Word | What it does |
|---|---|
| `--state` | prints the "state"; not with `--moves` |
| `--moves[=HOW]` | prints moves; =few prints few; not with `--level` |
| `--turns N` | how many turns; required |
| `-o OUT` | writes a file; only with `--state` |
| `[MORE..]` | with --moves: more files |
"""
ALL = """# Formats

<!-- options of several commands, written by tools/references --write -->
<!-- options of hek run, written by tools/references --write -->
<!-- options of hek sum, written by tools/references --write -->
"""


class Once(Tree):
    def setUp(self):
        super().setUp()
        self.once = self.script("once.py")
        self.write("crates/hek_command_line/src/rows.rt", SHARED)
        self.write("crates/hek_command_line/src/run_rows.rt", ROWS)

    def wrong(self, text):
        return [*self.once.wrong_options({"docs/A.md": text})]

    def test_a_table_is_what_the_rows_say(self):
        made = self.once.with_options("<!-- options of hek run, written by tools/references --write -->\n| old |\n\nAfter.\n")
        self.assertEqual(made, f"<!-- options of hek run, written by tools/references --write -->\n{RUN}\nAfter.\n")
        self.assertEqual(self.once.with_options(made), made)

    def test_what_several_commands_share_names_them(self):
        rows = ["| `FILE` | a schedule | `run`, `sum` |", "| `--level L` | takes all at a level | `run` |"]
        self.assertEqual(self.once.table("several commands")[2:], rows)

    def test_an_option_without_any_other_says_so_once(self):
        self.assertEqual(self.once.table("sum")[2], "| `--add` | adds; not with any other |")
        self.assertEqual(self.once.table("sum")[3], "| `--a` | a |")

    def test_a_stale_or_missing_table_is_found(self):
        text = self.once.with_options(ALL)
        self.assertEqual(self.wrong(text), [])
        stale = "docs/A.md: the options of run aren't what the rows say: tools/references --write"
        self.assertEqual(self.wrong(text.replace("how many turns", "turns")), [stale])
        self.assertEqual(len(self.wrong(text.replace("options of hek run", "options of hek walk"))), 2)
        self.assertEqual(self.wrong(text + text)[-1], "2 tables of the options of sum: one page has `<!-- options of .. -->` once")

    def test_a_second_list_of_options_is_found(self):
        text = self.once.with_options(ALL)
        for line in ("| `--state` | says it again |", "- `--state` says it again", "| `-o`, `--output OUT` | writes |"):
            self.assertEqual(len(self.wrong(f"{text}\n{line}\n")), 1, line)
            self.assertEqual(self.wrong(f"{text}\n```\n{line}\n```\n"), [])
        for line in ("With `--state` it is long.", "| `--none` | is no option |", "| `run --state` | a command |"):
            self.assertEqual(self.wrong(f"{text}\n{line}\n"), [], line)

    def test_a_list_by_hand_is_a_second_one(self):
        listed = "\n## hek history\n\n| `--state` | says it again |\n"
        self.assertEqual(self.wrong(self.once.with_options(ALL) + listed), ["docs/A.md: a second list of options: `--state` under hek history"])

    def test_a_second_table_of_levels_is_found(self):
        rows = "\n| Level | It says |\n|---|---|\n| `serializable` | all |\n| `snapshot` | some |\n"
        said = {"docs/LEVELS.md": f"# Levels\n{rows}"}
        self.assertEqual([*self.once.wrong_levels(said)], [])
        self.assertEqual([*self.once.wrong_levels({"docs/LEVELS.md": rows.replace("| `snapshot` | some |\n", "")})], ["docs/LEVELS.md: no row for the level snapshot"])
        wrong = ["docs/A.md: a second table of levels, under More: serializable, snapshot"]
        self.assertEqual([*self.once.wrong_levels(said | {"docs/A.md": f"# A\n\n## More\n{rows}"})], wrong)
        one = "\n| Verdict | Means |\n|---|---|\n| `serializable` | all |\n| `not serializable` | none |\n"
        self.assertEqual([*self.once.wrong_levels(said | {"docs/A.md": one})], [])

    def test_a_second_purpose_of_a_crate_is_found(self):
        purposes = {"hek_low": "Words of versions, as numbers of 64 bits, and their changes", "hek_top": "The machine"}
        rows = "\n| Crate | For |\n|---|---|\n| hek_low | words |\n| hek_top | all |\n"
        wrong = lambda page, text: [*self.once.wrong_purposes({page: text}, purposes)]
        self.assertEqual(wrong("docs/ARCHITECTURE.md", rows), [])
        self.assertEqual(wrong("docs/A.md", f"# A\n{rows}"), ["docs/A.md: a second table of crates, under A"])
        self.assertEqual(wrong("docs/A.md", "Words of versions, as numbers\nof 64 bits, and their changes."), ["docs/A.md: the purpose of hek_low, which its README has"])
        self.assertEqual(wrong("docs/A.md", "hek_low has words, hek_top the machine."), [])
