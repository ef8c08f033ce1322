"""Stored runs, sessions, calls, histories and logs of levels, for tools/cases: a parser for each format, and what is compared."""
import collections
import functools
import itertools
import json
import os
import random
import re
import tempfile

import kit
from launch import SHOWN, Sum, differing, run, told


# ---- runs: a schedule with its trace, its image, its verdict; that of a raised trace; the changes laid over the opening state


def fields(lines):
    """Each field of a state by its name."""
    found = {}
    for line in lines:
        if line.startswith("clock "):
            found["clock"] = line[6:]
            continue
        subject, rest = line.split(": ", 1)
        for place, part in enumerate(rest.split("; ")):
            if subject.startswith("version "):
                word = re.fullmatch(r"(\S+) (begin|end) (.*)", part)
                found[subject + (f" {word[2]}" if word else " row")] = f"{word[1]} {word[3].removesuffix(' no-more-reads clear')}" if word else part
            elif subject.startswith("txn ") and place < 2:
                found[f"{subject} {('level', 'state')[place]}"] = part
            else:
                found[f"{subject} {part.partition(' ')[0]}"] = part.partition(" ")[2]
    return found


LABELS = "begin end waits commits no-more-waits abort-now reads writes buckets waiting dependents".split()


def lay(found, change):
    """Lays a line of --changes over the fields of a state."""
    left, new = change.split(" -> ", 1)
    kind, *words = left.split(" ")
    if kind == "clock":
        found["clock"] = new
    elif kind == "version" and len(words) == 2:
        found |= fields([f"version {words[0]}: {new}"])
    elif kind == "txn":
        found[f"txn {words[0]} {words[1]} {words[2] if words[2] in LABELS else 'state'}"] = new
    elif kind == "bucket" and new in ("0", "none"):
        found.pop(f"bucket {words[0]} {words[1]}", None)
    else:
        found[f"{kind} {words[0]} {words[1]}"] = new


def state_lines(out):
    lines = out.decode().splitlines()
    return lines[next(place for place, it in enumerate(lines) if it.startswith("clock ")):]


def raised(trace, number):
    """A trace in which the first value that a line found or listed is one more, or the absence 0."""
    lines = trace.split("\n")
    line = re.sub(r"absent$", "found 0", lines[number - 1]) if lines[number - 1].endswith("absent") else lines[number - 1]
    if line == lines[number - 1]:
        line = re.sub(r"(-> found |-> rows \d+=)(\d+)", lambda it: f"{it[1]}{(int(it[2]) + 1) % 2**64}", line)
    return "\n".join(lines[:number - 1] + [line] + lines[number:])


def compare_run(folder, name, steps, verdict, more):
    read = lambda ending: open(f"{folder}/{name}.{ending}", "rb").read()
    file, trace, said = f"{folder}/{name}.hek", read("trace"), []

    def held(what, ran, wanted, status=0):
        if (ran.status, ran.out) != (status, wanted):
            said.extend([f"{what}: status {ran.status}", *differing(wanted, ran.out), *ran.err.decode().splitlines()[:3]])

    ran = run(["run", "--text", file])
    held("trace", ran, trace)
    if trace.count(b"\n") != int(steps):
        said.append(f"{trace.count(10)} steps, and not {steps}")
    held("verdict", run(["check", "--text", file, "-"], None, trace), verdict.encode() + b"\n", int(verdict != "serial"))
    if more:
        place, what = re.fullmatch(r" line (\d+) raised by one: (.*)", more).groups()
        held("verdict of the raised trace", run(["check", "--text", file, "-"], None, raised(trace.decode(), int(place)).encode()), what.encode() + b"\n", int(what != "serial"))
    if os.path.exists(f"{folder}/{name}.img"):
        image = read("img")
        newer = image[:5] + b"\x02" + image[6:]
        held("image", run(["asm", file, "-"]), newer)
        held("text of the image", run(["dis", f"{folder}/{name}.img"]), run(["dis", file]).out)
        held("trace of the image", run(["run", f"{folder}/{name}.img"]), trace)
    laid = fields(state_lines(run(["run", "--text", file, "--state-at", "0"]).out))
    for line in run(["run", "--text", file, "--changes"]).out.decode().splitlines():
        if line.startswith("  "):
            lay(laid, line[2:])
    last = fields(state_lines(run(["run", "--text", file, "--state"]).out))
    if laid != last:
        said += ["changes that do not come to the state", *(f"{it}: {laid.get(it)}, and not {last.get(it)}" for it in sorted(laid.keys() | last.keys()) if laid.get(it) != last.get(it))]
    return Sum(int(not said), [told(f"{os.path.basename(folder)}/{name}", *said)] if said else [], {})


def runs(folder, name):
    for number, line in enumerate(open(f"{folder}/SUMMARY").read().splitlines(), 1):
        words, _, more = line.partition(";")
        yield number, compare_run, (folder, *words.split(" ", 2), more)


def compare_stored(place, words, status, *paths):
    """A command line over a stored file beside stored outputs."""
    ran, wanted = run(words), [open(it, "rb").read() for it in paths]
    status = status if status is not None else int(any(wanted[1:]))
    said = [it for right, one in zip(wanted, [ran.out, ran.err]) if right != one for it in differing(right, one)] + [f"status {ran.status}"] * (ran.status != status)
    return Sum(int(not said), [told(place, *said)] if said else [], {})


def named(folder, ending):
    """The names of the files of a folder with this ending, each with its number."""
    return enumerate(sorted(it[: -len(ending)] for it in os.listdir(folder) if it.endswith(ending)), 1)


def debug(folder):
    for number, it in named(folder, ".commands"):
        words = ["debug", "--text", f"{folder}/{it}.hek", f"{folder}/{it}.commands"]
        yield number, compare_stored, (f"debug/{it}", words, None, f"{folder}/{it}.out", f"{folder}/{it}.err")


def anomalies(folder, schedules):
    for number, it in named(folder, ".levels"):
        yield number, compare_stored, (f"anomalies/{it}", ["permute", "--levels", f"{schedules}/{it}.hek"], 0, f"{folder}/{it}.levels")


# ---- calls: steps of a machine with what it shows between them, histories, sessions of the debugger

SHOWN_OF_TXN = {"level": 0, "state": 1, "begin_time": "begin", "end_time": "end", "waits": "waits", "commit_deps": "commits", "no_more_waits": "no-more-waits",
                "abort_now": "abort-now", "read_list": "reads", "write_list": "writes", "bucket_list": "buckets", "waiting_list": "waiting", "dependents": "dependents"}
STEPS = "begin read scan insert update delete finish precommit release commit fail stamp end".split()


def blocks(text):
    """The blocks of a file: the line, the schedule, the scene, and the calls with their answers."""
    found = []
    for number, line in enumerate(text.split("\n"), 1):
        line = line.strip()
        if not line or line.startswith("#"):
            continue
        if line.startswith("buckets ") or (not found and line.startswith("scene ")):
            found.append((number, [], [], []))
        repeated = re.fullmatch(r"for (\d+) (\d+) (.*)", line)
        first, last, line = repeated.groups() if repeated else (0, 0, line)
        for it in range(int(first), int(last) + 1):
            made = line.replace("$>", str(it + 1)).replace("$", str(it))
            if made.startswith("scene "):
                found[-1][2].extend(made.split()[1:])
            elif not found[-1][2]:
                found[-1][1].append(made)
            else:
                found[-1][3].append((number, *(part.strip() for part in made.partition(" -> ")[::2])))
    return found


def shown(call, words, state, names):
    """What a state has of what a call asks; the call is one of a library where that is nothing."""
    of = lambda *keys: next((state[it] for it in keys if it in state), "none")
    row = re.fullmatch(r"key (\d+) value (\d+)", of(f"version {words[0]} row")) if words else None
    if call in SHOWN_OF_TXN:
        kind, txn = SHOWN_OF_TXN[call], f"txn {words[0]} {names[int(words[0]) - 1]}"
        value = of(f"{txn} {('level', 'state')[kind] if isinstance(kind, int) else kind}")
        return {"set": "true", "clear": "false"}.get(value, "0" if call.endswith("_time") and value == "none" else value)
    return {"clock": lambda: of("clock"), "begin_word": lambda: of(f"version {words[0]} begin").split()[0], "end_word": lambda: of(f"version {words[0]} end").split()[0],
            "key": lambda: row[1] if row else "none", "value": lambda: row[2] if row else "none", "lock_count": lambda: state.get(f"bucket {words[0]} locks", "0"),
            "lock_list": lambda: of(f"bucket {words[0]} holders"), "txns": lambda: str(len(names)),
            "versions": lambda: str(sum(it.endswith(" row") for it in state))}.get(call, lambda: None)()


def play_machine(schedule, calls):
    names = [it.split()[1] for it in schedule if it.startswith("txn ")]
    number_of = lambda word: str(names.index(word) + 1) if word in names else str(ord(word) - 96) if re.fullmatch("[a-z]", word) else word
    text, steps, passed, failed, left, asked = schedule[:], [], 0, [], collections.Counter(), []
    for number, call, wanted in calls:
        words = [number_of(it) for it in call.split()]
        if words == ["detect"] or (len(words) > 1 and words[1] in STEPS):
            if words[0] != "detect" and not 0 < int(words[0]) <= len(names):
                return Sum(passed, failed, {"steps of a transaction that is not declared": len(calls)})
            text.append(" ".join(words if words[0] == "detect" else [names[int(words[0]) - 1], *words[1:]]))
            steps.append((number, text[-1], wanted))
        else:
            asked.append((len(steps), number, call, words, wanted))
    with tempfile.NamedTemporaryFile(suffix=".hek") as file:
        file.write("\n".join([*text, ""]).encode())
        file.flush()
        lines = run(["run", "--text", file.name]).out.decode().splitlines()
        for place, (number, step, wanted) in enumerate(steps):
            came = lines[place] if place < len(lines) else "(no line)"
            good = came == f"{place + 1} {step} -> {wanted}" if wanted else came.startswith(f"{place + 1} {step} -> ")
            passed += int(good and wanted != "")
            failed += [] if good else [told(number, f"{step} -> {wanted}", came)]
        for place in sorted({it[0] for it in asked}):
            state = fields(state_lines(run(["run", "--text", file.name, "--state-at", str(place)]).out))
            for _, number, call, words, wanted in (it for it in asked if it[0] == place and it[4]):
                if call == "run":  # a second run, of the image
                    image = run(["asm", file.name, "-"]).out
                    whole = run(["run", "--text", file.name, "--state"])
                    came = "same" if run(["run", "--image", "-", "--state"], None, image) == whole else "another end"
                else:
                    came = shown(words[0], words[1:], state, names)
                if came is None:
                    left[f"machine: {words[0]}"] += 1
                elif came == wanted:
                    passed += 1
                else:
                    failed.append(told(number, f"{call} -> {wanted}", came))
    return Sum(passed, failed, left)


def play_history(schedule, calls):
    passed, failed, left, trace, strange = 0, [], collections.Counter(), [], False
    with tempfile.NamedTemporaryFile(suffix=".hek") as file:
        file.write("\n".join([*schedule, ""]).encode())
        file.flush()
        for number, call, wanted in calls:
            event, is_event, reply = call.partition(": ")
            strange = strange or re.match(r"u\d ", event) is not None
            if is_event:
                trace.append(f"{len(trace) + 1} {event} -> {reply}\n")
            elif call != "check" or strange:
                left["history: an undeclared transaction" if strange else f"history: {call.split()[0]}"] += 1
            else:
                ran = run(["check", "--text", file.name, "-"], None, "".join(trace).encode())
                good = (ran.status, ran.out.decode()) == (int(wanted != "serial"), wanted + "\n")
                passed, failed = passed + good, failed + ([] if good else [told(number, f"{call} -> {wanted}", ran.out.decode(), ran.err.decode())])
    return Sum(passed, failed, left)


def play_session(schedule, calls, detects):
    passed, failed, left, came = 0, [], collections.Counter(), []
    with tempfile.TemporaryDirectory(prefix="cases-") as room:
        with open(f"{room}/s.hek", "w") as file:
            file.write("\n".join([*schedule, *["detect"] * detects, ""]))
        for number, call, wanted in calls:
            if call.startswith("commands "):
                text = json.loads(call[9:])
                with open(f"{room}/c", "w") as file:
                    file.write(text)
                ran = run(["debug", "--text", "s.hek", "c"], room)
                came = re.findall(r"^at (.*?)(?: -> (.*))?\n((?:\d.*\n)*)", ran.out.decode(), re.M)
                bad = re.search(r"hek: command line (\d+)", ran.err.decode())
                done, answer = 0, f"line {bad[1]}" if bad else str(len(came))
            elif call == "next":
                done, answer = done + 1, came[done][0] if done < len(came) else "(no stop)"
            elif call == "rest":
                done, answer = len(came), ""
            elif call == "last":
                answer = came[done - 1][1] or "none"
            elif call.startswith("look "):
                looks = [it.split()[-1] for it in came[done - 1][2].splitlines() if it.startswith(call[5:] + " ")]
                answer = looks[0] if looks else "none"
            else:
                left[f"debugger: {call.split()[0]}"] += int(wanted != "")
                continue
            good = answer == wanted or not wanted
            passed, failed = passed + int(good and wanted != ""), failed + ([] if good else [told(number, f"{call} -> {wanted}", answer)])
    return Sum(passed, failed, left)


def play_block(name, block):
    number, schedule, scene, calls = block
    cases = sum(bool(it[2]) for it in calls)
    if any(it[1] == "swap" for it in calls):
        ran = Sum(0, [], {"machine: copies": cases})
    elif scene[0] == "machine" and len(scene) == 1:
        ran = play_machine(schedule, calls)
    elif scene[0] == "history":
        ran = play_history(schedule, calls)
    elif scene[0] == "debugger":
        ran = play_session(schedule, calls, int((scene + ["0"])[1]))
    else:
        ran = Sum(0, [], {f"{scene[0]}{': from another clock' if len(scene) > 1 else ''}": cases})
    return ran._replace(failed=[f"{name}:{it}" for it in ran.failed])


def calls(path, name):
    for block in blocks(open(path).read()):
        yield block[0], play_block, (name, block)


# ---- histories and levels: logs with verdicts

ORDERS = ("any", "versions", "real")

# The words of a verdict on each transaction at its own level.
OWN = {"right": "serial", "wrong": "not serial"}


def judge_history(name, number, line):
    case, passed, failed = json.loads(line), 0, []
    log = "".join(json.dumps(it) + "\n" for it in case["log"]).encode()
    judged = any(it.get("status", "committed") == "committed" for it in case["log"] if "txn" in it)
    for order in ORDERS:
        wanted = case.get(order) or case.get("loose", {}).get(order)
        if wanted:
            ran = run(["history", "--level", "own", "--order", order, "--effort", "100000", "-"], None, log)
            came = re.match(r"right|wrong|nothing to judge", ran.out.decode())
            right = "nothing to judge" if not judged else wanted
            good = came is not None and OWN.get(came[0], came[0]) == right and ran.status == {"serial": 0, "not serial": 1, "nothing to judge": 3}[right]
            passed, failed = passed + good, failed + ([] if good else [told(f"{name}:{number}", f"{order}: wanted {wanted}, status {ran.status}", *(ran.out + ran.err).decode().splitlines()[:SHOWN])])
    return Sum(passed, failed, {})


def histories(path, name):
    for number, line in enumerate(open(path), 1):
        yield number, judge_history, (name, number, line)


# ---- levels: logs with the verdict at each level, stored or drawn from a seed

# What binds in a verdict, by the end of its name: how it is asked.
BINDING = {
    "": ["--levels", "--order", "any", "--no-sessions"],
    " +sessions": ["--levels", "--order", "any", "--sessions"],
    " +real": ["--levels", "--order", "real", "--no-sessions"],
    "guarantees": ["--guarantees", "--order", "any"],
}
GUARANTEES = ("monotonic-reads", "read-your-writes", "monotonic-writes", "writes-follow-reads", "all four")


def binding(level):
    """The key of BINDING by which a verdict is asked."""
    return "guarantees" if level in GUARANTEES else next((it for it in (" +sessions", " +real") if level.endswith(it)), "")


def judge_levels(name, number, case):
    """The verdicts of a log, at each level that is stored, are those of the program."""
    verdicts = {level: it for level, it in case.items() if it in ("holds", "fails")}
    log = "".join(json.dumps(it) + "\n" for it in case["log"]).encode()
    came, passed, failed = {}, 0, []
    for kind in {binding(it) for it in verdicts}:
        ran = run(["history", *BINDING[kind], "--json", "--effort", "100000", "-"], None, log)
        for it in map(json.loads, ran.out.splitlines()):
            if "verdict" in it and "level" in it:
                came[it["level"].replace("guarantees", "all four") + ("" if kind == "guarantees" else kind)] = it["verdict"]
    for level, wanted in verdicts.items():
        if came.get(level) == wanted:
            passed += 1
        else:
            failed.append(told(f"{name}:{number}", f"{case['name']}, {level}: {came.get(level)}, and not {wanted}"))
    return Sum(passed, failed, {})


def levels(path, name):
    for number, line in enumerate(open(path), 1):
        yield number, judge_levels, (name, number, json.loads(line))


SEED, COUNT = 1, 1300


@functools.lru_cache(maxsize=None)
def brute():
    """tools/brute_levels, which judges by all orders and sources."""
    return kit.module_of("brute_levels", f"{kit.TOOLS}/brute_levels")


def joined_keys(transactions):
    """Another number for each key, so that what one operation found has numbers in a row."""
    keys = sorted({k for it in transactions for _, k, _ in it["reads"]} | {k for it in transactions for k in it["writes"]})
    groups = [g for it in transactions for n in {r[0] for r in it["reads"]} if len(g := {k for m, k, _ in it["reads"] if m == n}) > 1]
    in_row = lambda order: all(max(order.index(k) for k in g) - min(order.index(k) for k in g) == len(g) - 1 for g in groups)
    return next((order for order in (itertools.permutations(keys) if groups else [keys]) if in_row(order)), None)


def operations(it, number, key):
    """The operations of a drawn transaction: what each found, and then its changes."""
    ops, passing = [], [k for k, _ in it["passing"]]
    last = {k: (n, need) for n, k, need in sorted(it["reads"], key=lambda read: read[:2])}
    told_gone = {k: last[k][0] for k, v in it["writes"].items() if v is None and k not in passing and k in last and last[k][1][0] == "present"}
    for n in sorted({r[0] for r in it["reads"]}):
        found = sorted((key(k), need, k) for m, k, need in it["reads"] if m == n)
        first, need, k = found[0]
        if len(found) > 1:
            ops.append(["range", first, found[-1][0] + 1, [[at, one[1]] for at, one, _ in found if one[0] == "value"]])
        elif need[0] == "present":
            ops.append(["delete", first, True] if told_gone.get(k) == n else ["insert", first, 0, False])
        else:
            ops.append(["read", first, need[1] if need[0] == "value" else None])
    there = set()
    for k, v in it["passing"] + [one for one in it["writes"].items() if one[0] not in told_gone]:
        if v is None:  # a delete finds a row, so there was one for a while, of a value that nobody reads
            ops += [["write", key(k), 2**63 + number]] * (k not in there) + [["delete", key(k), True]]
            there.discard(k)
        else:
            ops.append(["write", key(k), v])
            there.add(k)
    return ops if it["fits"] else [["write", 10**9, 1], ["read", 10**9, 2], *ops]


def log_of(rows, transactions, by_time):
    """A drawn log as `hek history` reads it, its turns as times or as numbers of a session; None where no log says the same."""
    order = joined_keys(transactions)
    turns = [it["turn"] for it in transactions if it["turn"]]
    if order is None or any(last < first or (not by_time and first != last) for _, first, last in turns):
        return None
    key = lambda k: list(order).index(k) if k in order else len(order) + k
    log = [{"rows": [[key(k), v] for k, v in rows.items()]}]
    for number, it in enumerate(transactions):
        turn = it["turn"]
        when = {} if not turn else {"at": list(turn[1:])} if by_time else {"session": list(turn[:2])}
        log.append({"txn": f"t{number}", "status": it["status"], **when, "ops": operations(it, number, key)})
    return log


def judge_drawn(name, seed, number):
    """A log that is drawn: its verdicts at each level and for each guarantee, by brute force, are those of the program."""
    source = random.Random(f"{seed}-{number}")
    by_time = number % 4 == 3
    rows, transactions = brute().draw_log(source, 1 if by_time else 2)
    if not by_time:  # a session's numbers, in place of turns
        for place, it in enumerate(transactions):
            at = source.randrange(len(transactions)) if source.random() < 0.1 else place
            it["turn"] = it["turn"] and (it["turn"][0], at, at)
    log = log_of(rows, transactions, by_time)
    if log is None:
        return Sum(0, [], {"levels: a drawn log that no log says": 1})
    tests = brute().tests_of(rows, transactions)
    asked = [it for it in tests if not by_time or it.endswith(" +sessions")]
    verdicts = {it.replace(" +sessions", " +real") if by_time else it: "holds" if tests[it]() else "fails" for it in asked}
    present = {key for it in transactions for _, key, need in it["reads"] if need[0] == "present"}
    if any(value is None and key in present for it in transactions for key, value in [*it["writes"].items(), *it["passing"]]):
        verdicts.pop("read-uncommitted", None)  # the log has a row for a while that such a read may have found
    return judge_levels(name, number, {"name": f"{seed}-{number}", "log": log, **verdicts})


def drawn(name):
    for number in range(COUNT):
        yield number, judge_drawn, (name, SEED, number)
