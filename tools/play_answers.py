"""What tools/play_test compares with the program: answers of the machine in a browser, and of hek.mjs."""
import glob
import json
import os
import random
import shutil
import subprocess
import tempfile

from kit import LEVELS

NAME, TRACE, LOG = "schedule.hek", "trace", "log.jsonl"
# Seconds that the program may take.
LONGEST = 300


# ---- schedules


def random_work(dice, name):
    """A read or a write, or rarely the wish to abort."""
    key, value = dice.randrange(5), dice.randrange(100)
    kind = dice.choice(("read", "read", "read", "update", "update", "insert", "delete", "scan", "fail" if dice.random() < 0.2 else "read"))
    operands = {"read": (key,), "delete": (key,), "scan": (key % 2,), "fail": ()}.get(kind, (key, value))
    return " ".join([name, kind, *map(str, operands)])


def random_transaction(dice, name):
    """The steps of a transaction, of which now and then one is left out or comes twice."""
    steps = [f"{name} begin", *(random_work(dice, name) for _ in range(dice.randrange(1, 5)))]
    steps += [f"{name} {it}" for it in ("finish", "precommit", "precommit", "release", "release", "release", "commit", "stamp", "stamp", "stamp", "end")]
    return [it for step in steps for it in [step] * dice.choice((1,) * 18 + (0, 2))]


def random_schedule(dice):
    names = "abcde"[: dice.randrange(1, 6)]
    lines = [f"buckets {dice.choice((1, 2, 2, 3))}"]
    lines += [f"row {key} {key * 10}" for key in range(5) if dice.random() < 0.7]
    lines += [f"txn {name} {dice.choice(LEVELS)}" for name in names]
    left = [random_transaction(dice, name) for name in names]
    while any(left):
        if dice.random() < 0.05:
            lines.append("detect")
        # Half of the schedules go through one transaction after another for a while.
        mine = dice.choice([it for it in left if it])
        for _ in range(dice.randrange(1, 6)):
            if mine:
                lines.append(mine.pop(0))
    return "\n".join(lines) + "\n"


def random_moves(dice):
    """A schedule of moves alone, as `hek permute` and `hek run --auto` want."""
    names = "abc"[: dice.randrange(2, 4)]
    lines = ["buckets 2", *(f"row {key} {key}" for key in range(3)), *(f"txn {name} {dice.choice(LEVELS)}" for name in names)]
    lines += [random_work(dice, name) for name in names for _ in range(dice.randrange(1, 4))]
    return "\n".join(lines) + "\n"


def random_schedules(count, seed):
    dice = random.Random(seed)
    return {f"random {at}": (random_moves if at % 3 == 0 else random_schedule)(dice) for at in range(count)}


def read(path):
    with open(path, encoding="utf-8") as it:
        return it.read()


def stored_schedules(root, folders):
    """The schedules of examples/ and of some folders, by their paths."""
    paths = [*sorted(glob.glob(f"{root}/examples/*.hek")), *sorted(glob.glob(f"{root}/examples/anomalies/*.hek"))]
    for folder in folders:
        paths += sorted(glob.glob(f"{folder}/**/*.hek", recursive=True))
    return {os.path.relpath(it, root): read(it) for it in paths}


# ---- the same answers


class Answers:
    """Compares each answer: status, standard output and standard error."""

    def __init__(self, browser, hek, root, report):
        self.browser, self.hek, self.root, self.report, self.count = browser, hek, root, report, 0

    def wanted(self, words, files):
        """What the program answers."""
        with tempfile.TemporaryDirectory() as folder:
            for name, said in files.items():
                with open(f"{folder}/{name}", "w", encoding="utf-8") as it:
                    it.write(said)
            ran = subprocess.run([self.hek, *words], cwd=folder, capture_output=True, stdin=subprocess.DEVNULL, timeout=LONGEST)
        return [ran.returncode, ran.stdout.decode(), ran.stderr.decode()]

    def same(self, what, words, files):
        """Compares the answers to one command, and answers what the program printed."""
        got = self.browser.eval(f"hek({json.dumps(words)}, {json.dumps(files)}).then(it => [it.status, it.out, it.err])")
        wanted = self.wanted(words, files)
        self.count += 1
        if got != wanted:
            first = next((at for at, (a, b) in enumerate(zip(map(str, got), map(str, wanted))) if a != b), 0)
            self.report(f"{what}: hek {' '.join(words)}: {str(got[first])[:200]!r}, and the program {str(wanted[first])[:200]!r}")
        return wanted[1]

    def same_schedule(self, what, text):
        files = {NAME: text}
        trace = self.same(what, ["run", NAME], files)
        with_trace = {**files, TRACE: trace}
        for words in (["run", "--why=rules", "--changes", "--state", "--explain", NAME], ["run", "--auto", "--json", NAME], ["page", NAME],
                      ["page", "--orders", "--limit", "300", NAME], ["permute", "--levels", "--limit", "3000", NAME],
                      ["permute", "--limit", "3000", "--grain", "split", NAME]):
            self.same(what, words, files)
        for words in (["check", NAME, TRACE], ["check", "--all", "--summary", NAME, TRACE], ["check", "--level", "serializable", "--why", NAME, TRACE]):
            self.same(what, words, with_trace)
        log = self.same(what, ["run", "--history", NAME], files)
        for words in ([], ["--order", "any"], ["--order", "real", "--all"], ["--level", "serializable", "--json"]):
            self.same(what, ["history", *words, LOG], {LOG: log})

    def same_mistakes(self, what, text):
        self.same(what, ["run", "--explain", NAME], {NAME: text.replace("read", "raed").replace("txn", "tnx", 1)})

    def same_logs(self):
        for path in sorted(glob.glob(f"{self.root}/examples/histories/*.jsonl")):
            for words in ([], ["--level", "serializable"], ["--order", "any"], ["--all"], ["--levels"], ["--levels", "--order", "real"]):
                self.same(os.path.basename(path), ["history", *words, LOG], {LOG: read(path)})
        self.same("words", ["word", "8040000000000002", "7FFFFFFFFFFFFFFF", "0000000000000004", "BADBADBADBADBADB"], {})


# ---- hek.mjs, with a Node that is made for the test


# A page in which hek.mjs runs as it is, with a Node of files in memory: other numbers for the flags of open, as macOS has them, and a pipe
# that has no room at first.
HOST = """<!DOCTYPE html><meta charset="utf-8"><title>host</title>
<script>Atomics.wait = () => "timed-out";</script>
<script type="importmap">{"imports": {"node:fs": "./node-fs.mjs", "node:process": "./node-process.mjs", "node:tty": "./node-tty.mjs"}}</script>"""
MADE = {
    "/host.html": ("text/html", HOST),
    "/node-tty.mjs": ("text/javascript", "export default {isatty: fd => fd === globalThis.made.terminal};"),
    "/node-process.mjs": ("text/javascript", """export default {version: "v24", get argv() { return ["node", "hek.mjs", ...made.args]; },
      set exitCode(status) { made.status = status; }, stderr: {write() {}}, exit(status) { throw {exit: status}; }};"""),
    "/node-fs.mjs": ("text/javascript", """
      const fail = code => { throw Object.assign(new Error(code), {code}); };
      const constants = {O_WRONLY: 1, O_RDWR: 2, O_CREAT: 0x200, O_TRUNC: 0x400, O_APPEND: 8, O_EXCL: 0x800};
      const bytesOf = url => {
        const it = new XMLHttpRequest();
        it.open("GET", url, false);
        it.overrideMimeType("text/plain; charset=x-user-defined");
        it.send();
        return Uint8Array.from(it.response, char => char.charCodeAt(0));
      };
      export default {constants, readFileSync: bytesOf,
        openSync(name, flags) {
          if (name === "folder") return 99;
          if (name === "shut") fail("EACCES");
          if (flags & 1) { if (!(flags & constants.O_CREAT)) fail("EINVAL"); made.files[name] = []; }
          else if (!(name in made.files)) fail("ENOENT");
          made.open.push({name, at: 0});
          return made.open.length + 2;
        },
        readSync(fd, bytes) {
          if (fd === 99) fail("EISDIR");
          const file = fd === 0 ? made.input : made.open[fd - 3], all = fd === 0 ? file.bytes : made.files[file.name];
          const some = all.slice(file.at, file.at + Math.min(bytes.length, 1000));
          if (fd === 0 && some.length === 0 && made.windows) fail("EOF");
          bytes.set(some);
          file.at += some.length;
          return some.length;
        },
        writeSync(fd, bytes) {
          if (fd === 1 && made.busy-- > 0) fail("EAGAIN");
          const some = [...bytes.subarray(0, 700)];
          (fd === 1 ? made.out : fd === 2 ? made.err : made.files[made.open[fd - 3].name]).push(...some);
          return some.length;
        },
        closeSync() {}};"""),
}


def host_cases(text, image):
    """Command lines with their standard input."""
    return [(["run", "x.hek"], b""), (["run", "--text", "-"], text), (["asm", "x.hek", "x.img"], b""), (["dis", "x.img"], b""), (["asm", "-", "x.img"], text), (["dis", "x.img", "-"], b""),
            (["word", "-"], b"8040000000000002\nzz\n"), (["run", "none.hek"], b""), (["run", "folder"], b""), (["run", "shut"], b""), ([], b""),
            (["run", "--no"], b""), (["permute", "--levels", "x.hek"], b""), (["debug", "x.hek"], b"step 3\nshow txn a\n"),
            (["drive", "x.hek"], b"a begin\na read 10\n"), (["page", "x.hek"], b"")]


def room_of(folder, text, image):
    """The files of a command."""
    os.mkdir(f"{folder}/folder")
    for name, said in (("shut", b""), ("x.hek", text), ("x.img", image)):
        with open(f"{folder}/{name}", "wb") as it:
            it.write(said)


def made_by(folder):
    with open(f"{folder}/x.img", "rb") as it:
        return list(it.read())


def answered(program, words, given, text, image):
    """What a program answers in a folder of its own: status, both outputs, and the image that is there then."""
    with tempfile.TemporaryDirectory() as folder:
        room_of(folder, text, image)
        ran = subprocess.run([*program, *words], cwd=folder, capture_output=True, input=given)
        return [ran.returncode, ran.stdout.decode(), ran.stderr.decode(), made_by(folder)]


def answered_here(browser, index, words, given, text, image):
    """What hek.mjs answers in the browser."""
    made = {"args": words, "files": {"x.hek": list(text), "x.img": list(image)}, "input": {"bytes": list(given), "at": 0}, "open": [], "out": [], "err": [], "busy": 2,
            "windows": index % 2}
    return browser.eval(f"""(async () => {{
      globalThis.made = {json.dumps(made)};
      await import("./hek.mjs?{index}");
      const text = bytes => new TextDecoder().decode(new Uint8Array(bytes));
      return [made.status, text(made.out), text(made.err), made.files["x.img"]];
    }})()""")


def able_node():
    """A Node that has 64-bit WebAssembly, or None."""
    node = shutil.which("node")
    if not node:
        return None
    said = subprocess.run([node, "-p", "process.versions.node.split('.')[0]"], capture_output=True, text=True).stdout.strip()
    return node if said.isdigit() and int(said) >= 24 else None


def same_host(browser, hek, root, want):
    """Compares hek.mjs with the program: by Node where there is one from 24 on, and with a made Node in the browser."""
    text = read(f"{root}/examples/write-skew.hek").encode()
    image = subprocess.run([hek, "asm", "-", "-"], input=text, capture_output=True, check=True).stdout
    node, cases = able_node(), host_cases(text, image)
    for index, (words, given) in enumerate(cases):
        wanted = answered([hek], words, given, text, image)
        if words[1:] == ["shut"]:
            # The program may read what it likes here, where root runs it.
            got = answered_here(browser, index, words, given, text, image)
            want(f"hek.mjs {' '.join(words)}", [got[0], got[1], bool(got[2])], [1, "", True])
            continue
        want(f"hek.mjs {' '.join(words)}", answered_here(browser, index, words, given, text, image), wanted)
        if node:
            want(f"node hek.mjs {' '.join(words)}", answered([node, f"{root}/bin/hek.mjs"], words, given, text, image), wanted)
    return f"{len(cases)} commands of hek.mjs, " + (f"and by {node}" if node else "in the browser: there is no Node from 24 on here")
