"""tools/assets: names that a script declares twice."""
import unittest

from tree import TOOLS, kit

assets = kit.module_of("tested_assets", f"{TOOLS}/assets")


class DeclaredTwice(unittest.TestCase):
    def test_functions_and_constants(self):
        text = "function one() {\n  const two = 1;\n}\nconst two = () => 2;\nasync function one(x) {}\nlet three = 3;\n"
        self.assertEqual(assets.declared_twice(text), ["one"])

    def test_a_constant_and_a_function(self):
        self.assertEqual(assets.declared_twice("const a = 1;\nfunction a() {}\n"), ["a"])

    def test_none(self):
        self.assertEqual(assets.declared_twice("const a = 1;\nfunction b() {\n  function a() {}\n}\n"), [])

    def test_the_page(self):
        self.assertEqual(assets.declared_twice(assets.panels()), [])


class Shortened(unittest.TestCase):
    def test_comments_and_empty_lines_go(self):
        self.assertEqual(assets.shortened("// one\n\nconst a = 1; // two\n/* three\n   four */\n/** five */\nb();\n"), "const a = 1; // two\nb();\n")

    def test_a_block_stands_beside_its_neighbours(self):
        self.assertEqual(assets.shortened("function f() {\n  // one\n  g();\n  if (h) {\n    i();\n  }\n}\nj();\n"), "function f() { g(); if (h) { i(); } }\nj();\n")

    def test_nothing_is_joined_to_a_comment(self):
        self.assertEqual(assets.shortened("f(); // {\n}\n"), "f(); // {\n}\n")

    def test_long_lines_stay(self):
        text = f"a({'1' * 100});\nb({'2' * 100});\n"
        self.assertEqual(assets.shortened(text), text)

    def test_templates_stay(self):
        text = "const a = `one {\n\n// two\n}\n`;\n"
        self.assertEqual(assets.shortened(text), text)

    def test_the_page(self):
        self.assertLess(assets.script().count("\n"), assets.commented().count("\n"))


if __name__ == "__main__":
    unittest.main()
