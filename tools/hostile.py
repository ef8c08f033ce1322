"""Hostile inputs, each with an answer that a rule gives, for tools/cases. HOSTILE=all in the environment tries each byte of an image as each other."""
import json
import os
import re
import subprocess
import tempfile

import launch
from launch import Sum, run, told

HEADER = bytes.fromhex("484B53430002 00000004 00000001 00000001 00000001 000000000000000A 0000000000000064 01 01 61 02 00000001 000000000000000A 0000000000000000")
TEXT = """buckets 4 # so many

row 10 100
row 25 7
# transactions
txn alpha serializable
txn b_2 repeatable
txn c snapshot
alpha begin
b_2 begin
c begin
alpha read 10
alpha scan 3
b_2 insert 11 5
b_2 update 25 8
c delete 40
detect
alpha finish
alpha precommit
alpha release
alpha commit
alpha stamp
alpha end
c fail
"""
NUMBER = "(0|[1-9][0-9]*)"
OPERANDS = {1: 0, 2: 1, 3: 1, 4: 2, 5: 2, 6: 1, 7: 0, 8: 0, 9: 0, 10: 0, 11: 0, 12: 0, 13: 0, 14: 0}


class Fault(Exception):
    pass


def judge_image(data):
    """The fault of an image, or nothing: by the table of images in docs/FORMATS.md."""
    at = 0

    def field(size):
        nonlocal at
        if at + size > len(data):
            raise Fault("3 Short")
        at += size
        return data[at - size:at]

    def number(size, least=0, most=2**64):
        value = int.from_bytes(field(size), "big")
        if not least <= value <= most:
            raise Fault(f"4 BadField at {at - size}")
        return value

    try:
        if field(4) != b"HKSC":
            raise Fault("1 BadMagic")
        version = number(2)
        if version not in (1, 2):
            raise Fault("2 BadVersion")
        buckets, rows, txns, steps = number(4, 1, 1024), number(4, 0, 65536), number(4, 0, 1024), number(4, 0, 1000000)
        keys, names = set(), set()
        for _ in range(rows):
            key = number(8)
            if key in keys:
                raise Fault(f"4 BadField at {at - 8}")
            keys.add(key)
            number(8)
        for _ in range(txns):
            number(1, 1, version + 1)
            name = field(number(1, 1, 32))
            if not re.fullmatch(rb"[a-z][a-z0-9_]*", name) or name in names | {b"buckets", b"row", b"txn", b"detect"}:
                raise Fault(f"4 BadField at {at - len(name)}")
            names.add(name)
        for _ in range(steps):
            code = number(1, 1, 14)
            number(4, *((0, 0) if code == 14 else (1, txns)))
            number(8, 0, 0 if not OPERANDS[code] else buckets - 1 if code == 3 else 2**64)
            number(8, 0, 2**64 if OPERANDS[code] == 2 else 0)
        if at < len(data):
            raise Fault("5 Trailing")
    except Fault as fault:
        return str(fault)
    return ""


def images(version, at, changes):
    """An image with one byte changed: the loader says what the table says, and what loads is written back."""
    failed, passed = [], 0
    for change in changes:
        image = bytearray(HEADER)
        image[5] = version
        image[at] ^= change
        ran, fault = run(["dis", "--image", "-"], None, bytes(image)), judge_image(bytes(image))
        wanted = f"hek: image: {fault}\n".encode() if fault else b""
        good = (ran.status, ran.err) == (int(bool(fault)), wanted)
        if good and not fault:
            image[5] = 2
            good = run(["asm", "-", "-"], None, ran.out).out == bytes(image)
        passed, failed = passed + good, failed + ([] if good else [told(f"hostile/changed bytes of images:{at}", f"{image.hex()}: wanted {fault or 'no fault'}", repr(ran))])
    return Sum(passed, failed, {})


def fronts(version, size):
    """A front of an image, that ends, that fails after its last byte, and that goes on endlessly."""
    front = HEADER[:5] + bytes([version]) + HEADER[6:]
    front = front[:size]
    ended, broken = run(["dis", "--image", "-"], None, front), run(["dis", "--image", "-"], None, front, breaks=True)
    whole = size == len(HEADER)
    endless = run(["dis", "--image", "-"], None, front + bytes(23_000_000)) if whole else None
    right = [(ended.status, ended.err) == ((0, b"") if whole else (1, b"hek: image: 3 Short\n")), (broken.status, broken.err) == (1, b"hek: image: 6 Read\n")]
    right += [(endless.status, endless.err) == (1, b"hek: image: 5 Trailing\n")] * whole if whole else []
    return Sum(sum(right), [] if all(right) else [told(f"hostile/fronts of images:{size}", "a front", repr((ended, broken)))], {})


def sinks(room):
    image = run(["asm", "-", "-"], None, run(["dis", "--image", "-"], None, HEADER).out).out
    ran = run(["asm", "-", "-"], None, b"buckets 4\nrow 10 100\ntxn a serializable\na read 10\n", room=room)
    good = (ran.status, ran.err, ran.out) == ((0, b"", HEADER) if room == len(HEADER) else (1, b"hek: cannot write\n", HEADER[:room])) and image == HEADER
    return Sum(int(good), [] if good else [told(f"hostile/sinks without room:{room}", "a sink", repr(ran))], {})


def text_fault(front):
    """What is said of a cut text: all its lines but the last are whole, and right."""
    last, line = front.split("\n")[-1].partition("#")[0].strip(), front.count("\n") + 1
    if line == 1:
        return {"buckets 4": "", "buckets": "line 1: 2 BadWord"}.get(last, "line 1: 1 NoBuckets")
    words = last.split(" ")
    operands = {"read": 1, "scan": 1, "delete": 1, "insert": 2, "update": 2, **dict.fromkeys("begin finish precommit release commit stamp end fail".split(), 0)}
    whole = last in ("", "detect") or (words[0] == "row" and len(words) == 3) or (words[0] == "txn" and words[-1] in ("serializable", "repeatable", "snapshot"))
    whole = whole or (words[0] not in ("row", "txn") and len(words) > 1 and operands.get(words[1]) == len(words) - 2)
    return "" if whole else f"line {line}: 2 BadWord"


def cuts(size):
    ran, fault = run(["dis", "--text", "-"], None, TEXT[:size].encode()), text_fault(TEXT[:size])
    good = (ran.status, ran.err.decode()) == ((1, f"hek: {fault}\n") if fault else (0, ""))
    return Sum(int(good), [] if good else [told(f"hostile/cut schedule texts:{size}", f"wanted: {fault or 'no fault'}", repr(ran))], {})


def is_line(line, number, names):
    """Whether a trace has this line: by the table of replies."""
    event = f"(({names}) (begin|finish|precommit|release|commit|fail|stamp|end|(read|scan|delete) {NUMBER}|(insert|update) {NUMBER} {NUMBER})|detect)"
    reply = f"(began N|found N|absent|rows( N=N)*|done|exists|ready|precommitted N|waiting N|waiting commits N|released read N( writer N)?|released (bucket|waiter) N|nothing|" \
            "committed|failed|stamped (begin|end) N|left N|over|no cycle)".replace("N", NUMBER)
    return re.fullmatch(f"{number} {event} -> {reply}", line) is not None


def changed_lines(file, number, trace):
    """Each character of a line taken away, and doubled."""
    passed, failed, lines = 0, [], trace.splitlines(True)
    line = lines[number - 1]
    for at in range(len(line) - 1):
        for made in (line[:at] + line[at + 1:], line[:at + 1] + line[at:]):
            ran = run(["check", "--text", file, "-"], None, "".join([*lines[:number - 1], made, *lines[number:]]).encode())
            whole = is_line(made[:-1], number, "a|b")
            good = (ran.err == b"" and ran.status in (0, 1)) if whole else (ran.status, ran.err) == (1, f"hek: trace line {number}\n".encode())
            passed, failed = passed + good, failed + ([] if good else [told(f"hostile/changed trace lines:{number}", made, repr(ran))])
    return Sum(passed, failed, {})


def raised_replies(file, trace):
    """Each value that was found or listed raised by one, and each absence found as 0."""
    lines, tried = trace.splitlines(True), [(0, trace)]
    for number, line in enumerate(lines, 1):
        for value in re.finditer(r"(?<=-> found )\d+|(?<==)\d+|(?<=-> )absent", line):
            new = "found 0" if value[0] == "absent" else str(int(value[0]) + 1)
            tried.append((number, "".join([*lines[:number - 1], line[:value.start()] + new + line[value.end():], *lines[number:]])))
    ran = [(number, run(["check", "--text", file, "-"], None, text.encode())) for number, text in tried]
    bad = [told(f"hostile/raised replies:{number}", repr(it)) for number, it in ran if it.out.decode() != (f"not serial {number}\n" if number else "serial\n")]
    return Sum(len(ran) - len(bad), bad, {})


def readers():
    """1,024 transactions, of which 255 read one version; the next two; one that gives up its lock; the next."""
    steps = [(f"t{it} begin", f"began {it}") for it in range(1, 1025)] + [(f"t{it} read 10", "found 100") for it in range(1, 256)]
    steps += [(f"t{it} read 10", "aborted readers-full") for it in (256, 257)]
    steps += [("t1 finish", "ready"), ("t1 precommit", "precommitted 1025"), ("t1 release", "released read 0"), ("t258 read 10", "found 100")]
    text = "buckets 1\nrow 10 100\n" + "".join(f"txn t{it} repeatable\n" for it in range(1, 1025)) + "".join(it + "\n" for it, _ in steps)
    came = run(["run", "--text", "-"], None, text.encode()).out.decode().splitlines()
    bad = [told(f"hostile/limits of readers:{at}", f"{event} -> {reply}", line) for at, ((event, reply), line) in enumerate(zip(steps, came), 1) if line != f"{at} {event} -> {reply}"]
    return Sum(len(came) - len(bad), bad, {})


def crowd():
    """A history of 1,000,000 events: 1,000 transactions in turns, each with the replies that it gets after those with lesser end times."""
    rows, seed, scripts = {it: it for it in range(65536)}, 1, []
    for txn in range(1, 1001):
        script = [f"t{txn} begin -> began {txn}"]
        for _ in range(997):
            seed ^= seed << 13 & 2**64 - 1
            seed ^= seed >> 7
            seed ^= seed << 17 & 2**64 - 1
            key, kind = seed % 65536, seed // 65536 % 128
            if kind == 0:
                listed = (f" {it}={rows[it]}" for it in range(key % 1024, 65536, 1024) if it in rows)
                script.append(f"t{txn} scan {key % 1024} -> rows{''.join(listed)}")
            elif key not in rows or 8 <= kind < 64:
                script.append(f"t{txn} {'update' if key in rows else 'insert'} {key} {seed} -> done")
                rows[key] = seed
            elif kind < 8:
                script.append(f"t{txn} delete {key} -> done")
                del rows[key]
            else:
                script.append(f"t{txn} read {key} -> found {rows[key]}")
        scripts.append(script + [f"t{txn} precommit -> precommitted {txn + 1000}", f"t{txn} commit -> committed"])
    trace = "".join(f"{place * 1000 + at + 1} {script[place]}\n" for place in range(1000) for at, script in enumerate(scripts))
    with tempfile.TemporaryDirectory(prefix="cases-") as room:
        with open(f"{room}/s.hek", "w") as file:
            file.write("buckets 1024\n" + "".join(f"row {it} {it}\n" for it in range(65536)) + "".join(f"txn t{it} serializable\n" for it in range(1, 1001)))
        ran = run(["check", "s.hek", "-"], room, trace.encode())
    good = (ran.status, ran.out) == (0, b"serial\n")
    return Sum(int(good), [] if good else [told("hostile/1,000,000 events:1", repr(ran))], {})


EVIL = "a\x1b[31m\x07\x7f\u009b\u202e\u2066z"
BARE = re.compile("[\0-\x08\x0b-\x1f\x7f-\x9f\u202a-\u202e\u2066-\u2069]")
INPUTS = (EVIL, f"buckets 1 # {EVIL}\nrow 10 1\ntxn a serializable\n# {EVIL}\na read 10 # {EVIL}\n", f"buckets 1\nrow 10 1\ntxn a serializable\na {EVIL} 10\n",
          json.dumps({"txn": EVIL, "status": "committed", "ops": [["read", EVIL, EVIL]]}, ensure_ascii=False) + "\n")


def controls(command):
    """Control characters in each name, in the value of each option and in what is read: none goes out."""
    options = re.findall(r"--([a-z-]+) <", run([command, "--help"]).out.decode())
    lines = [([command, *more], given) for given in INPUTS for more in ([], ["-"], ["-", "-"], ["-", "--all"], ["-", "--why"], ["-", "--text"], ["-", "--orders"], [EVIL], ["-", EVIL], [EVIL, EVIL])]
    lines += [([command, f"--{it}", EVIL, "-"], INPUTS[1]) for it in options] + [([command, f"--{EVIL}"], ""), ([EVIL], ""), ([command + EVIL], "")]
    # A name may be that of a file to be written, which goes with the folder.
    with tempfile.TemporaryDirectory(prefix="cases-") as room:
        ran = [(words, run(words, room, given.encode())) for line, given in lines for words in (line, [*line, "--json"], [*line, "--explain"])]
    bad = [told(f"hostile/control characters:{command}", repr(words), repr(it)) for words, it in ran if BARE.search((it.out + it.err).decode(errors="replace"))]
    return Sum(len(ran) - len(bad), bad, {})


# Command lines whose OUT is FILE: by its name, another one, a link, a second name of the same file, and as standard input.
SAME = [(words, file) for file in ("f.hek", "link", "hard") for words in ("asm f.hek OUT", "asm - OUT", "page f.hek -o OUT", "page - -o OUT", "history f.jsonl --order-out OUT", "history - --order-out OUT")]


def overwritten(place):
    """A command whose OUT is its FILE: refused, and the file is as it was."""
    words, out = SAME[place]
    name, text = ("f.jsonl", INPUTS[3]) if "history" in words else ("f.hek", TEXT)
    with tempfile.TemporaryDirectory(prefix="cases-") as room:
        with open(f"{room}/{name}", "w", encoding="utf-8") as file:
            file.write(text)
        os.symlink(name, f"{room}/link")
        os.link(f"{room}/{name}", f"{room}/hard")
        line = ["hek", *words.replace("OUT", name if out == "f.hek" else out).split()]
        with open(f"{room}/{name}", "rb") as given:
            ran = subprocess.run(line, executable=launch.HEK, cwd=room, stdin=given, capture_output=True, env={})
        with open(f"{room}/{name}", encoding="utf-8") as file:
            good = (ran.returncode, file.read(), sorted(os.listdir(room))) == (2, text, sorted(["link", "hard", name])) and b"is FILE itself" in ran.stderr
    return Sum(int(good), [] if good else [told(f"hostile/OUT is FILE:{place}", repr(line), repr(ran))], {})


def work(folder):
    """What there is, as tools/cases has it: a name with its cases. The folder has the schedules whose traces are changed."""
    traces = sorted(f"{folder}/{it}" for it in os.listdir(folder))
    ran = [run(["run", "--text", it]).out.decode() for it in traces]
    changes = range(1, 256) if os.environ.get("HOSTILE") == "all" else (1, 2, 3, 4, 8, 16, 32, 64, 128, 255)
    sizes = range(len(HEADER) + 1)
    yield "hostile/fronts of images", [(1, fronts, (v, it)) for v in (1, 2) for it in sizes]
    yield "hostile/changed bytes of images", [(1, images, (v, it, changes)) for v in (1, 2) for it in range(len(HEADER))]
    yield "hostile/sinks without room", [(1, sinks, (it,)) for it in sizes]
    yield "hostile/cut schedule texts", [(1, cuts, (it,)) for it in range(len(TEXT) + 1)]
    yield "hostile/changed trace lines", [(1, changed_lines, (traces[0], it, ran[0])) for it in range(1, ran[0].count("\n") + 1)]
    yield "hostile/raised replies", [(1, raised_replies, (file, trace)) for file, trace in zip(traces, ran)]
    yield "hostile/OUT is FILE", [(1, overwritten, (it,)) for it in range(len(SAME))]
    yield "hostile/control characters", [(9, controls, (it,)) for it in "run debug page permute check history drive threads word release dis completions man".split()]
    yield "hostile/limits of readers", [(1, readers, ())]
    yield "hostile/1,000,000 events", [(1, crowd, ())]
