"""The crates of a crates.txt, and what the scripts draw."""
from tree import Tree, kit


class Crates(Tree):
    def test_has_each_crate_after_those_that_it_uses(self):
        self.crates("# top\nc: a b std_thing\n# low\nb: a\na:\n")
        self.assertEqual(kit.below(["c"]), ["a", "b", "c"])
        self.assertEqual(kit.crates()["c"].deps, ["a", "b"])
        self.assertEqual(kit.groups(), {"top": ["c"], "low": ["b", "a"]})

    def test_knows_programs_tests_and_streams(self):
        self.crates("lib_a:\nprog: lib_a\n", lib_a="#[cfg(test)]\nmod tests {\n    #[test]\n    fn it() {}\n}\n")
        self.write("crates/prog/src/main.rt", "")
        self.write("crates/prog/stdout", "out\n")
        self.forget()
        self.assertTrue(kit.crates()["prog"].is_program and not kit.crates()["lib_a"].is_program)
        self.assertTrue(kit.has_tests("lib_a") and not kit.has_tests("prog"))
        self.assertEqual(kit.crates()["prog"].stream("stdout"), b"out\n")
        self.assertIsNone(kit.crates()["prog"].stream("args"))


class Draws(Tree):
    def test_are_those_of_a_fixed_sequence(self):
        one, other = kit.Draw(), kit.Draw()
        drawn = [one.below(1000) for _ in range(50)]
        self.assertEqual(drawn, [other.below(1000) for _ in range(50)])
        self.assertEqual(drawn[:4], [512, 515, 312, 853])

    def test_something_always_goes_at_once(self):
        self.assertEqual(kit.at_once(10**18), 1)


SOURCE = """#[repr(C)]
#[derive(Clone, Copy)]
pub struct Two {
    /// A number.
    pub one: u64,
    pub other: u32,
    pub third: u32,
}

#[repr(C)]
pub struct Three {
    pub one: u64,
    pub other: u64,
    pub third: u64,
}

#[unsafe(no_mangle)]
pub extern "C" fn two(it: &mut Two, number: u64) -> Two
    ensures { it }
{}

#[unsafe(no_mangle)]
pub extern "C" fn three() -> Three {}
"""
MODULE = """define internal void @"lib::calls::two"(ptr noundef %a0, ptr noundef %a1, i64 noundef %a2) #0 {
}
define internal void @"lib::calls::three"(ptr noundef %a0) #0 {
}
"""


class LibrariesForC(Tree):
    def test_answer_two_numbers_in_registers_and_more_in_a_place_of_the_caller(self):
        self.write("lib/src/calls.rt", SOURCE)
        crate = f"{kit.ROOT}/lib"
        self.assertEqual(kit.small_answers(crate), {"two"})
        module = kit.with_exports(MODULE, crate)
        self.assertIn("define { i64, i64 } @two(ptr noundef %a1, i64 noundef %a2) {", module)
        self.assertIn('call void @"lib::calls::two"(ptr noundef %room, ptr noundef %a1, i64 noundef %a2)', module)
        self.assertIn("define void @three(ptr noundef sret([24 x i8]) align 8 %a0) #0 {", module)
