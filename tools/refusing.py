"""Refuses growths of memory of the program, for tools/cases --refuse: each command line comes to the same, or is out of memory."""
import json
import os
import random
import re
import subprocess
import tempfile

import launch
from launch import Sum, told

# How many of a command line's growths are refused, and how many it may have; the seed of the draws.
EACH, MOST, SEED = 10, 40_000, 5
SAID = b"growth refused\n"
COLOURS = re.compile(rb"\x1b\[[0-9]*m")
def library():
    """The library that refuses, built anew."""
    source = os.path.join(os.path.dirname(os.path.abspath(__file__)), "refuse_growth.c")
    built = os.path.join(tempfile.mkdtemp(prefix="refuse-"), "refuse_growth.so")
    subprocess.run([os.environ.get("CC", "cc"), "-shared", "-fPIC", "-O2", "-o", built, source, "-ldl"], check=True)
    return built


def statuses_without_memory(words):
    """The statuses of a command line that is out of memory: 4, which is no verdict; or 1, unless that answers a question. `check` keeps 1."""
    text = [it.decode(errors="replace") for it in words if not it.startswith((b"--explain", b"--color"))]
    asks = text[:1] == ["history"] or (text[:1] == ["permute"] and "--find" in text) or (text[:1] == ["word"] and "--changes" in text)
    return (4,) if asks else (1, 4)


def run(words, files, given, env, more):
    """A run in a folder of its own: status, outputs, and the files that it made."""
    with tempfile.TemporaryDirectory(prefix="refuse-") as folder:
        for name, data in files.items():
            with open(os.path.join(folder, name), "wb") as file:
                file.write(data)
        ran = launch.run(words, folder, given, {**env, **more})
        return ran.status, ran.out, ran.err, sorted(set(os.listdir(folder)) - set(files))


def without_faults(out):
    """The lines of an output, without an object that says that memory is out."""
    return b"".join(it for it in out.splitlines(True) if not re.search(rb'"message":"no memory"|"no memory"', it))


def has_members(whole, part):
    """Whether each line is an object with no member that the whole one hasn't: of a fault, as of its line, parts of the explanation may be left out."""
    if len(whole.splitlines()) != len(part.splitlines()):
        return False
    try:
        pairs = [(json.loads(one), json.loads(other)) for one, other in zip(whole.splitlines(), part.splitlines())]
    except ValueError:
        return whole == part
    return all(one == other or ("fault" in one and one.items() >= other.items()) for one, other in pairs)


def has_lines(whole, part):
    """Whether the line of a fault is there, if it is not on standard output, and of its explanation, or of notes, no line that the whole one hasn't."""
    lines = whole.splitlines()
    has_fault = lines[:1] and lines[0].startswith(b"hek: ") and not lines[0].startswith(b"hek: note: ")
    return (not has_fault or part.splitlines()[:1] == lines[:1]) and all(it in lines for it in part.splitlines())


def wrong(words, whole, ran):
    """What is wrong with a run of which a growth was refused: nothing, or a line. Of an explanation parts may be left out. A session says
    of a command that memory is out, and goes on."""
    status, out, err, made = ran
    err = COLOURS.sub(b"", err.replace(SAID, b""))
    if (status, made) == (whole[0], whole[3]) and has_members(whole[1], out) and (err == whole[2] or has_lines(COLOURS.sub(b"", whole[2]), err)):
        return None
    if words[:1] == [b"debug"] and b"hek: no memory\n" in err and (status, made) == (1, []):
        return None
    is_out = err.endswith(b"hek: no memory\n") or b"no memory" in out
    if not is_out:
        return f"neither the same nor out of memory: status {status}, {err[:80]!r}"
    if made:
        return f"out of memory, and made {' '.join(made)}"
    if status not in statuses_without_memory(words):
        return f"out of memory with status {status}"
    if not whole[1].startswith(without_faults(out)):
        return f"out of memory after another output: {out[:80]!r}"
    return None


def refuse(name, number, words, files, given, env, shim):
    """Refuses some of the growths of a command line, one in each run."""
    whole = run(words, files, given, env, {})
    count = 1
    while count < MOST and SAID in run(words, files, given, env, {"LD_PRELOAD": shim, "HEK_REFUSE": str(count)})[2]:
        count *= 2
    draw, passed, failed = random.Random(f"{SEED}-{name}-{number}"), 0, []
    for growth in sorted({draw.randint(1, count) for _ in range(EACH)}):
        ran = run(words, files, given, env, {"LD_PRELOAD": shim, "HEK_REFUSE": str(growth)})
        if SAID in ran[2]:
            why = wrong(words, whole, ran)
            passed, failed = passed + (why is None), failed + ([told(f"{name}:{number}", f"{b' '.join(words).decode(errors='replace')}: growth {growth}: {why}")] if why else [])
    return Sum(passed, failed, {})


def command_lines(scenes):
    """The command lines of scenes that need no terminal and no device, each with its number, its words, files, input and environment."""
    for items in scenes:
        files = {}
        for item in items:
            if item[0] == "file":
                files[item[1]] = item[2]
            elif item[0] == "case" and not item[1].how:
                for number, _, words in item[1].commands:
                    if b"threads" not in words[:1] and b"full" not in words and b"locked" not in words:
                        yield number, words, dict(files), item[1].given, item[1].env


def work(files, read):
    """What there is, as tools/cases has it: for each file of cases its name and its command lines."""
    shim = library()
    for name, scenes in files:
        yield name, [(it[0], refuse, (name, *it, shim)) for it in command_lines(read(scenes))]
