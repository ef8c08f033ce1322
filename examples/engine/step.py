#!/usr/bin/env python3
"""Steps an engine beside `hek drive`, and compares every reply and the whole state after every event.

    step.py [WORDS] -- ENGINE ..     ENGINE .. starts the engine; FILE among its words becomes the path of a schedule

    --hek HEK        the program hek; `hek` if not given
    --schedules N    how many random schedules; 100 if not given
    --steps N        at most so many events of each; 80 if not given
    --seed N         the number of the first schedule; 1 if not given
    --level L        all transactions at this level; otherwise each at one by chance
    --steps-of FILE  takes the steps of this schedule text in place of random ones
    --loose          for engines that lock while they walk: after an event that aborts its transaction only that is
                     compared, and the schedule ends there if another cause or another state is left
    --save FILE      writes the first schedule that differs, up to the event that differs

The engine reads events, one a line, as the steps of a schedule text. At its start and after each event it prints its whole
state and an empty line; before the state of an event comes a line with the reply. State and reply are in the form of `hek run
--state`; what follows a word of 16 digits may be left out. The status is 0 if nothing differs, 1 if something does.
"""
import argparse
import random
import re
import shutil
import subprocess
import sys
import tempfile
from contextlib import ExitStack, closing

LEVELS = ("serializable", "repeatable", "snapshot")
KEYS, BUCKETS, TXNS = 5, 2, 6
WORD_FIELDS = {"begin", "end"}


# ---- states: the clock, each version, transaction and bucket, with its fields


def list_or_none(text):
    return text.strip() or "none"


def read_version(text):
    """A version's line after `version V: `."""
    key_value, begin, end = text.split("; ")
    _, key, _, value = key_value.split()
    return {"key": key, "value": value, "begin": begin.split()[0], "end": end.split()[0]}


def read_txn(text):
    """A transaction's line after its name."""
    level, state, *fields = text.split("; ")
    named = dict(field.partition(" ")[::2] for field in fields)
    return {"level": level, "state": state, **{name: list_or_none(it) for name, it in named.items()}}


def read_state(lines):
    state = {}
    for line in lines:
        subject, _, rest = line.partition(": ")
        kind, *words = subject.split()
        if kind == "clock":
            state["clock"] = {"time": words[0]}
        elif kind == "version":
            state[f"version {words[0]}"] = read_version(rest)
        elif kind == "txn":
            state[f"txn {words[0]}"] = read_txn(rest)
        elif kind == "bucket":
            state[f"bucket {words[0]}"] = dict(field.partition(" ")[::2] for field in rest.split("; "))
        else:
            raise ValueError(f"no line of a state: {line}")
    return state


def change(state, line):
    """Lays one line of `--changes` over a state."""
    kind, number, *words = line.split()
    old, _, new = " ".join(words).partition(" -> ")
    subject = f"{kind} {number}"
    if kind == "clock":
        state["clock"] = {"time": words[-1]}
    elif kind == "version" and old == "none":
        state[subject] = read_version(new)
    elif kind == "version":
        state[subject][words[0]] = new.split()[0]
    elif kind == "bucket":
        state.setdefault(subject, {})[words[0]] = new
        if new == "none":
            del state[subject]
    elif words[1] in state[subject] and words[1] not in ("level", "state"):
        state[subject][words[1]] = new
    else:
        state[subject]["state"] = new


def differences(ours, theirs):
    """The fields that differ, as lines: what the engine has, and what hek has."""
    found = []
    for subject in sorted({*ours, *theirs}):
        mine, right = ours.get(subject, {}), theirs.get(subject, {})
        names = [name for name in {**right, **mine} if mine.get(name) != right.get(name)]
        found += [f"{subject} {name}: {mine.get(name)}, and hek has {right.get(name)}" for name in names]
    return found


# ---- the two programs


class Hek:
    """`hek drive`. An empty line ends its answer to an event."""

    def __init__(self, program, path):
        opening = subprocess.run([program, "run", "--text", "--state-at", "0", path], capture_output=True, text=True, check=True)
        words = [program, "drive", "--text", "--changes", "--ends", path]
        self.process = subprocess.Popen(words, text=True, stdin=subprocess.PIPE, stdout=subprocess.PIPE)
        self.state = read_state(opening.stdout.splitlines())

    def do(self, event):
        self.process.stdin.write(f"{event}\n")
        self.process.stdin.flush()
        answer = self.process.stdout.readline()
        for line in iter(self.process.stdout.readline, "\n"):
            change(self.state, line)
        return answer.rstrip("\n").partition(" -> ")[2]

    def close(self):
        self.process.communicate()


class Engine:
    def __init__(self, words, path):
        words = [path if word == "FILE" else word for word in words]
        self.process = subprocess.Popen(words, text=True, stdin=subprocess.PIPE, stdout=subprocess.PIPE, stderr=subprocess.DEVNULL)
        self.state = self.read_state()

    def read_state(self):
        lines = []
        for line in iter(self.process.stdout.readline, "\n"):
            if not line:
                raise EOFError("the engine has ended")
            lines.append(line.rstrip("\n"))
        return read_state(lines)

    def do(self, event):
        self.process.stdin.write(f"{event}\n")
        self.process.stdin.flush()
        reply = self.process.stdout.readline().rstrip("\n")
        self.state = self.read_state()
        return reply

    def close(self):
        self.process.communicate()


# ---- schedules


def random_opening(dice, level):
    rows = [f"row {key} {key * 10}" for key in range(0, KEYS, 2)]
    level = level or dice.choice([*LEVELS, None])
    txns = [f"txn t{number} {level or dice.choice(LEVELS)}" for number in range(1, TXNS + 1)]
    return [f"buckets {BUCKETS}", *rows, *txns]


def operation(dice):
    key, value = dice.randrange(KEYS), dice.randint(100, 999)
    kinds = {"read": 4, "update": 4, "insert": 2, "delete": 1, "scan": 1}
    kind = dice.choices([*kinds], [*kinds.values()])[0]
    operands = {"scan": [key % BUCKETS], "insert": [key, value], "update": [key, value]}.get(kind, [key])
    return " ".join([kind, *map(str, operands)])


def random_event(dice, state):
    """An event that fits the state of a transaction by chance; None if that one has ended."""
    if dice.random() < 0.05:
        return "detect"
    number = dice.randint(1, TXNS)
    txn = state[f"txn {number}"]
    phase = txn["state"].split()[0]
    if phase == "active":
        phase = "finished" if txn["no-more-waits"] == "set" else "open"
    events = {
        "not": ["begin"],
        "open": [operation(dice)] * 14 + ["finish"] * 3 + ["fail"],
        "finished": ["precommit"] * 10 + ["fail"],
        "preparing": ["release"] * 5 + ["commit"] * 3 + ["fail"],
        "committed": ["release", "stamp"],
        "aborted": ["release", "stamp"],
    }.get(phase)
    if phase in ("committed", "aborted") and all(txn[it] == "none" for it in ("reads", "buckets", "waiting", "writes")):
        events = ["end"]
    return events and f"t{number} {dice.choice(events)}"


def split(text):
    """The opening of a schedule text, and its steps."""
    lines = [line.partition("#")[0].strip() for line in text.splitlines()]
    is_opening = re.compile(r"(buckets|row|txn)\b").match
    return [line for line in lines if is_opening(line)], [line for line in lines if line and not is_opening(line)]


# ---- the comparison


class Ended(Exception):
    """A schedule ends here; `lines` say what differs, none if only an abort left another state."""

    def __init__(self, lines):
        super().__init__()
        self.lines = lines


def compare(hek, engine, event, is_loose):
    right, mine = hek.do(event), engine.do(event)
    lines = differences(engine.state, hek.state)
    if is_loose and right.startswith("aborted") and mine.startswith("aborted"):
        if right != mine or lines:
            raise Ended([])
        return
    if right != mine:
        lines.insert(0, f"reply: {mine}, and hek says {right}")
    if lines:
        raise Ended(lines)


class Tally:
    def __init__(self):
        self.schedules = self.steps = self.differ = self.left = 0
        self.first = None

    def add(self, number, opening, done, lines):
        self.schedules += 1
        self.steps += len(done)
        self.differ += bool(lines)
        self.left += lines == []
        if lines and not self.first:
            self.first = (number, opening, done, lines)

    def report(self, save):
        text = f"{self.schedules} schedules, {self.steps} events: {self.differ} differ"
        print(text + (f"; {self.left} ended at an abort that leaves another state" if self.left else ""))
        if not self.first:
            return 0
        number, opening, done, lines = self.first
        print(f"schedule {number}, event {len(done)}: {done[-1] if done else 'the start'}")
        print("\n".join(f"  {line}" for line in lines))
        if save:
            with open(save, "w", encoding="utf-8") as file:
                file.write("\n".join([*opening, *done, ""]))
        return 1


def run_schedule(options, opening, events):
    """Steps both through events, which are made from the state of hek. The answer: the events done, and what differed
    (None if nothing did)."""
    done = []
    with tempfile.NamedTemporaryFile("w", suffix=".hek") as file, ExitStack() as both:
        file.write("\n".join([*opening, ""]))
        file.flush()
        hek = both.enter_context(closing(Hek(options.hek, file.name)))
        try:
            engine = both.enter_context(closing(Engine(options.engine, file.name)))
            for event in events(hek):
                done.append(event)
                compare(hek, engine, event, options.loose)
        except Ended as ended:
            return done, ended.lines
        except (EOFError, OSError, ValueError) as fault:
            return done, [str(fault)]
    return done, None


def random_events(dice, count):
    def events(hek):
        for _ in range(count):
            event = random_event(dice, hek.state)
            if event:
                yield event

    return events


def main():
    parser = argparse.ArgumentParser(description=__doc__, formatter_class=argparse.RawDescriptionHelpFormatter)
    parser.add_argument("--hek", default="hek")
    parser.add_argument("--schedules", type=int, default=100)
    parser.add_argument("--steps", type=int, default=80)
    parser.add_argument("--seed", type=int, default=1)
    parser.add_argument("--level", choices=LEVELS)
    parser.add_argument("--steps-of")
    parser.add_argument("--loose", action="store_true")
    parser.add_argument("--save")
    parser.add_argument("engine", nargs="+")
    options, tally = parser.parse_args(), Tally()
    for program in (options.hek, options.engine[0]):
        if not shutil.which(program):
            parser.error(f"there is no program {program}")
    if options.steps_of:
        with open(options.steps_of, encoding="utf-8") as file:
            opening, steps = split(file.read())
        tally.add(1, opening, *run_schedule(options, opening, lambda hek: steps))
        return tally.report(options.save)
    for number in range(options.seed, options.seed + options.schedules):
        dice = random.Random(number)
        opening = random_opening(dice, options.level)
        tally.add(number, opening, *run_schedule(options, opening, random_events(dice, options.steps)))
    return tally.report(options.save)


sys.exit(main())
