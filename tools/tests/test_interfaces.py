"""The public names that stay as they are, and the crate that uses them."""
from tree import Tree

import names

LIST = """# A comment.
hek_low
Word::new(u64) -> Word
Word::parts(&Word) -> (u64, u64)
enum Found { No, At(u64), Between { low: u64, high: u64 } }
struct Pair { key: u64, value: u64 }
trait Gate { fn before(&self, nth: u64) }
put<W: Write>(&[(u64, u64)], &mut W) -> Option<Word>

hek_top
use hek_low::Other
whole(Other, Pair)
"""
LOW = """pub use word::{Word, put};
pub use shapes::{Found, Gate, Pair};
"""
WORD = """impl Word {
    pub fn new(number: u64) -> Word {}
    pub fn parts(&self) -> (u64, u64) {}
}
"""


class Interfaces(Tree):
    def setUp(self):
        super().setUp()
        self.crates("hek_low:\nhek_top: hek_low\n", hek_low=LOW, hek_top="pub use whole::whole;\n")
        self.write("crates/hek_low/src/word.rt", WORD)
        self.write("tools/interfaces.txt", LIST)

    def test_all_names_are_there(self):
        self.assertEqual([*names.lacking()], [])

    def test_a_name_that_goes_is_found(self):
        self.write("crates/hek_low/src/lib.rt", LOW.replace(", put", ""))
        self.write("crates/hek_low/src/word.rt", WORD.replace("parts", "pieces"))
        self.write("tools/interfaces.txt", f"{LIST}\nhek_none\nf()\n")
        wrong = ["hek_low: no Word::parts", "hek_low: it exports no put", "hek_none: there is no such crate"]
        self.assertEqual([*names.lacking()], wrong)

    def test_parts_are_told_from_what_is_inside_them(self):
        self.assertEqual(names.parted("&[(u64, u64)], Result<A, B>, fn(C) -> D"), ["&[(u64, u64)]", "Result<A, B>", "fn(C) -> D"])
        self.assertEqual(names.parted(""), [])

    def test_the_crate_uses_each_name(self):
        made = self.script("interfaces").program(*names.listed())
        for it in (
            "fn call_0(a0: u64) -> Word { Word::new(a0) }",
            "fn call_1(a0: &Word) -> (u64, u64) { Word::parts(a0) }",
            "fn make_2_2(low: u64, high: u64) -> Found { Found::Between { low, high } }",
            "match it { Found::No => 0, Found::At(..) => 1, Found::Between { .. } => 2, }",
            "fn take_3(it: Pair) -> (u64, u64) { let Pair { key, value } = it; (key, value) }",
            "impl Gate for Probe4 { fn before(&self, nth: u64) { let _ = (nth,); } }",
            "fn call_5<W: Write>(a0: &[(u64, u64)], a1: &mut W) -> Option<Word> { put(a0, a1) }",
            "use std::io::Write;",
            "use hek_low::Pair;",
            "use hek_low::Other;",
        ):
            self.assertIn(it, made)
