"""What the pages, the lists and the crates lack of each other."""
from tree import Tree

PAGE = """# Title

Prose names `Words.lock` and `Words.key`, [one](#a-heading) and [another](#none), crates/low/src/lib.rt, crates/low/src/none.rt,
[there](docs/A.md), [nowhere](docs/B.md), low_crate, hek_low and hek_none.

## A heading

<!-- of: crates/hek_low/src/lib.rt -->
```
fn there()
fn gone()
```
"""
ARCHITECTURE = """Hek is 3 small crates.

<!-- first sentences of the crates' READMEs, written by tools/references --write -->
| Crate | old |

| Crate: module | What happens |
|---|---|
| hek_low: one, two; hek_top: three | steps |

After.
"""


class References(Tree):
    def setUp(self):
        super().setUp()
        self.crates("# words\nhek_low:\n# machine\nhek_top: hek_low\n# program\nhek: hek_top\n", hek_low="//! a\nfn there()\n")
        self.references = self.script("references")

    def test_a_bad_link_is_found(self):
        self.write("docs/A.md", "# A\n")
        self.write("README.md", PAGE)
        wrong = [*self.references.missing_links("README.md", PAGE, {"README.md": PAGE})]
        self.assertEqual(wrong, ["no heading #none", "no file docs/B.md"])

    def test_missing_names_are_found(self):
        for path in ("crates/low/src/lib.rt", "docs/A.md"):
            self.write(path, "")
        self.assertEqual([*self.references.missing_definitions(PAGE, {"Words": {"lock"}})], ["no definition Words.key"])
        self.assertEqual([*self.references.missing_paths(PAGE)], ["no path crates/low/src/none.rt", "no path docs/B.md"])
        self.assertEqual([*self.references.missing_crates(PAGE, {"hek_low"})], ["no crate or function hek_none"])
        self.assertEqual([*self.references.missing_lines(PAGE)], ["crates/hek_low/src/lib.rt has no line fn gone()"])

    def test_the_size_of_the_sources_is_what_the_page_says(self):
        said = "The sources: `src/` of all crates has {} functions."
        self.assertEqual([*self.references.wrong_size(said.format("4 lines and 1"))], [])
        wrong = "'src/` of all crates has 3 lines and 1 functions', where 'src/` of all crates has 4 lines and 1 functions': tools/references --write"
        self.assertEqual([*self.references.wrong_size(said.format("3 lines and\n1"))], [wrong.replace("and 1 functions', w", "and\\n1 functions', w")])
        self.references.MOST_FUNCTIONS = 0
        self.assertEqual(len([*self.references.wrong_size(said.format("4 lines and 1"))]), 1)

    def test_headings_that_are_equal_have_anchors_of_their_own(self):
        self.assertEqual(self.references.anchors("# A b\n## A b\n```\n# no\n```\n"), {"a-b", "a-b-1"})

    def test_the_table_of_crates_is_made_from_their_readmes(self):
        for crate, said in (("hek_low", "Words, as\n[pages](../A.md) have them. More."), ("hek_top", "The machine."), ("hek", "The program: `main`")):
            self.write(f"crates/{crate}/README.md", f"# {crate}\n\n{said}\n\nEnd.\n")
        rows = ["| **Words** | |", "| [hek_low](../crates/hek_low/README.md) | Words, as pages have them |", "| **Machine** | |"]
        rows += ["| [hek_top](../crates/hek_top/README.md) | The machine |", "| **Program** | |", "| [hek](../crates/hek/README.md) | The program: `main` |"]
        made = self.references.purposes()
        self.assertEqual(made.splitlines()[2:], rows)
        text = self.references.written(ARCHITECTURE)
        wrong = lambda text: [*self.references.wrong_purposes(text)]
        self.assertEqual(wrong(text), [])
        self.assertEqual(wrong(text.replace("The machine |", "Old |")), ["the crates: the row of hek_top isn't what the sources give: tools/references --write"])
        self.assertEqual(wrong("none"), ["no table of the crates below its comment"])

    def test_a_module_that_a_walk_names_is_looked_for(self):
        for path in ("hek_low/src/one.rt", "hek_top/src/in/three.rt"):
            self.write(f"crates/{path}", "")
        self.assertEqual([*self.references.missing_walks(ARCHITECTURE)], ["no module two of hek_low"])

    def test_a_definition_that_moved_is_found(self):
        self.write("crates/hek_low/specs/Words.antt", "-- words\n\nabbrev pub lock : N\nlock = 1\n")
        link = "[`Words.lock`](../crates/hek_low/specs/Words.antt#L3)"
        self.assertEqual(self.references.with_lines("A [`Words.lock`](), and `Words.key`."), f"A {link}, and `Words.key`.")
        self.assertEqual([*self.references.wrong_lines(link)], [])
        wrong = ["the link of `Words.lock` isn't what the sources give: tools/references --write"]
        self.assertEqual([*self.references.wrong_lines(link.replace("L3", "L2"))], wrong)
        self.assertEqual([*self.references.wrong_lines("[`Words.lock`]()")], wrong)

    def test_a_task_that_the_list_lacks_is_found(self):
        text = "# Commands\n\n[run it](#run-it) (`run`)\n\n## Run it\n\n## Judge it\n"
        wrong = ["no task Judge it in the list at the top", "no command judge in the list at the top"]
        self.assertEqual([*self.references.missing_tasks(text, 'words=""\nwords="run judge help --help"')], wrong)

    def test_another_number_of_crates_is_found(self):
        self.assertEqual([*self.references.wrong_count(ARCHITECTURE)], [])
        self.crates("hek_low:\nhek_new:\n")
        self.assertEqual([*self.references.wrong_count(ARCHITECTURE)], ["3 crates, where crates.txt has 2: tools/references --write"])
        self.assertEqual([*self.references.wrong_count("Hek has crates.")], ["no sentence `Hek is N small crates`"])

    def test_files_that_name_a_case_are_listed(self):
        self.write("crates/hek_top/src/level.rt", "Level::Snapshot => 1\n")
        self.write("crates/hek_top/specs/Levels.antt", "f Snapshot = 1\n")
        self.write("crates/hek_low/src/cause.rt", "Cause::Cascade => Snapshots\n")
        rows = ["| hek_low | | | | src: cause |", "| hek_top | | src: level; specs: Levels | | |"]
        self.assertEqual(self.references.touched().splitlines()[2:], rows)

    def test_a_module_that_a_readme_lacks_is_found(self):
        for path in ("src/one.rt", "src/two/three.rt"):
            self.write(f"crates/hek_low/{path}", "")
        text = "# hek_low\n\n`one` in prose.\n\n| Module | What it has |\n|---|---|\n| three, old | things |\n\n| File | Its |\n|---|---|\n| one | two |\n"
        self.assertEqual([*self.references.missing_modules("hek_low", text)], ["no module one", "a module old, where there is none"])

    def test_a_stale_edit_is_found(self):
        self.write("crates/hek_low/edits/add.edit", "file: src/lib.rt\nold: there\nnew: here\n")
        self.write("tools/edits-tried.txt", "# head\nhek_low/add | refused | add: goal returns | 0123456789\nhek_low/old | refused | x | 0123456789\n")
        lost, old = self.references.stale_edits()
        self.assertEqual((lost, old), (["hek_low/old: there is no such edit: tools/edits forget"], ["hek_low/add"]))

    def test_a_script_without_a_row_is_found(self):
        self.write("tools/new", "")
        self.write("tools/old", "")
        self.assertEqual([*self.references.missing_tools("| `tools/old` | does |")], ["no row for tools/new"])
