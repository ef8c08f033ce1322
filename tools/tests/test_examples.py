"""The examples of the pages, run by a made-up program, and by docs/hek.mjs under a made-up Node."""
import os
import tempfile

from tree import Tree

PAGE = """# A

```
$ hek run a.hek
ran run a.hek
$ hek threads a.hek --turns 1
a history of threads
$ hek permute a.hek --jobs 2
outcomes
$ NO_COLOR=1 hek run a.hek
ran run a.hek
```

<!-- part of: hek threads a.hek --turns 1 -->
```
a history of threads
```

<!-- needs: bin/libhek_c.a -->
```
$ cc a.c
```
"""
NODE = '#!/bin/sh\n[ "$1" = "@" ] || exit 9\nshift\necho "ran $*"\n'
# A Node that can't run docs/hek.mjs as it is.
UNABLE = '#!/bin/sh\n[ "$1" != "@" ] || { echo "hek: v20 has no 64-bit WebAssembly" >&2; exit 2; }\n'


class Examples(Tree):
    def setUp(self):
        super().setUp()
        for name in ("examples/a", "crates/a", "tools/a", "docs/hek.mjs", "out/hek"):
            self.write(name, NODE.replace("@", f"{self.root}/docs/hek.mjs"))
        self.write("out/hek", '#!/bin/sh\necho "ran $*"\n')
        os.chmod(f"{self.root}/out/hek", 0o755)
        self.node(NODE)
        self.write("README.md", PAGE)
        self.examples = self.script("examples")
        was = os.environ["PATH"]
        os.environ["PATH"] = f"{self.root}/path:{was}"
        self.addCleanup(os.environ.__setitem__, "PATH", was)

    def node(self, text):
        self.write("path/node", text.replace("@", f"{self.root}/docs/hek.mjs"))
        os.chmod(f"{self.root}/path/node", 0o755)

    def tried(self, program):
        with tempfile.TemporaryDirectory(prefix="room-") as folder:
            return self.said(self.examples.try_page, "README.md", self.examples.Room(program, folder, self.examples.NODE))

    def test_a_program_runs_every_command(self):
        (count, left, wrong), said = self.tried(f"{self.root}/out/hek")
        self.assertEqual((count, left, len(wrong), said), (5, 1, 3, ""))

    def test_hek_mjs_runs_what_it_can_and_says_what_it_leaves_out(self):
        (count, left, wrong), said = self.tried(self.examples.MJS)
        self.assertEqual((count, left, wrong), (1, 1, []))
        lines = ["$ hek threads a.hek --turns 1", "$ hek permute a.hek --jobs 2", "$ NO_COLOR=1 hek run a.hek", "$ hek threads a.hek --turns 1"]
        self.assertEqual([it[it.index("$") :] for it in said.splitlines()], lines)
        self.assertEqual(said.splitlines()[0], "README.md:3: left out: docs/hek.mjs has no threads: $ hek threads a.hek --turns 1")

    def test_an_old_node_gets_what_is_there_for_tests(self):
        self.assertEqual(self.said(self.examples.able_node)[0], self.examples.NODE)
        self.node(UNABLE + "true\n")
        self.assertEqual(self.said(self.examples.able_node)[0], self.examples.OLD_NODE)

    def test_says_that_no_node_can(self):
        self.node(UNABLE + "exit 9\n")
        self.assertEqual(self.said(self.examples.able_node)[0], None)
        os.environ["PATH"] = f"{self.root}/nowhere"
        self.assertEqual(self.said(self.examples.able_node), (None, "Left out: there is no Node\n"))

    def test_what_is_wrong_under_an_able_node_is_no_reason_to_leave_all_out(self):
        self.node("#!/bin/sh\necho SyntaxError >&2\nexit 1\n")
        with self.assertRaises(SystemExit) as ended:
            self.examples.able_node()
        self.assertEqual(ended.exception.code, "SyntaxError")
