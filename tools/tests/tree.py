"""Small made-up repositories, over which the tests of the scripts run."""
import contextlib
import io
import os
import sys
import tempfile
import unittest

TOOLS = os.path.dirname(os.path.dirname(os.path.realpath(__file__)))
sys.path.insert(0, TOOLS)
sys.dont_write_bytecode = True

import kit


class Tree(unittest.TestCase):
    """A test with a folder of its own in place of the repository. What a script computes of the root it computes when `script` loads it."""

    def setUp(self):
        room = tempfile.TemporaryDirectory(prefix="tree-")
        self.addCleanup(room.cleanup)
        self.root, was = room.name, kit.ROOT
        kit.ROOT = self.root
        self.addCleanup(setattr, kit, "ROOT", was)
        self.forget()
        self.addCleanup(self.forget)

    @staticmethod
    def forget():
        """Has crates.txt read anew."""
        kit.crates.cache_clear()

    def write(self, path, text):
        os.makedirs(os.path.dirname(f"{self.root}/{path}"), exist_ok=True)
        with open(f"{self.root}/{path}", "w", encoding="utf-8") as it:
            it.write(text)

    def read(self, path):
        with open(f"{self.root}/{path}", encoding="utf-8") as it:
            return it.read()

    def crates(self, text, **files):
        """Writes crates.txt, and for each of its crates a library with a file."""
        self.write("crates.txt", text)
        self.forget()
        for name in kit.crates():
            self.write(f"crates/{name}/src/lib.rt", files.get(name, f"//! {name}\n"))

    @staticmethod
    def script(name):
        return kit.module_of(f"tested_{name}", f"{TOOLS}/{name}")

    @staticmethod
    def said(call, *given):
        """What a call answers, and what it prints."""
        with contextlib.redirect_stdout(io.StringIO()) as out:
            return call(*given), out.getvalue()
