"""The plays that docs/play.html has stored: of each schedule that it has, one for each outcome at each level, as `hek permute --json` tells them."""
import json
import re
import subprocess
import tempfile

from kit import LEVELS

# So many outcomes of a level have a stored play.
MOST = 12


class Asked:
    """A program that is asked about one text."""

    def __init__(self, hek, text, name):
        self.hek, self.text, self.name = hek, text, name

    def lines(self, *words):
        """The objects that the program prints, whatever its status; none where it can't."""
        with tempfile.TemporaryDirectory() as folder:
            path = f"{folder}/{self.name}"
            with open(path, "w", encoding="utf-8") as it:
                it.write(self.text)
            ran = subprocess.run([self.hek, *words, path], capture_output=True, text=True)
        found = [json.loads(it) for it in ran.stdout.splitlines()]
        return [it for it in found if it.get("kind") != "fault"]


def is_written_out(text):
    """Whether each step of the machine is in a text: it has a `begin`, and computes nothing."""
    lines = [it.partition("#")[0] for it in text.splitlines()]
    return any(re.match(r"\s*\S+\s+begin\b", it) for it in lines) and not any(re.search(r"@|\sif\s", it) or it.startswith("always ") for it in lines)


def is_bad(outcome):
    return outcome["verdict"].startswith("not") or outcome.get("breaks") is not None


def by_level(rows):
    """The outcomes of a table of all levels, by level, the commonest first."""
    found = {}
    for level in LEVELS:
        its = [{**it, "orders": it["levels"][level], "first": it["first"][level]} for it in rows if it["levels"][level]]
        for it in its:
            del it["levels"]
        found[level] = {"orders": sum(it["orders"] for it in its), "outcomes": sorted(its, key=lambda it: -it["orders"])}
    return found if rows else {}


def opening(asked, own, outcomes, is_raw):
    """Where a schedule opens: where its page says so; else at the weakest level with an outcome that is broken or not serializable; else as it is written."""
    levels = set(own["levels"])
    written = {"level": own["levels"][0] if len(levels) == 1 else "as written", "order": own["order"]}
    if asked:
        level = asked["level"] if asked["level"] in LEVELS else written["level"]
        order = asked["order"] or next((it["first"] for it in outcomes.get(level, {"outcomes": []})["outcomes"] if is_bad(it)), own["order"])
        return {"level": level, "order": order}
    for level in [] if is_raw else reversed(LEVELS):
        bad = next((it for it in outcomes.get(level, {"outcomes": []})["outcomes"] if is_bad(it)), None)
        if bad:
            return {"level": level, "order": bad["first"]}
    return written


def of_schedule(hek, text, asked):
    """The plays of a schedule or a program, its outcomes by level, and where it opens."""
    its, is_raw = Asked(hek, text, "schedule.hek"), is_written_out(text)
    own = its.lines("run", *([] if is_raw else ["--auto"]), "--moves", "--json")[0]
    outcomes = by_level(its.lines("permute", "--levels", "--json"))
    opens = opening(asked, own, outcomes, is_raw)
    orders = [opens["order"], own["order"], *(it["first"] for level in outcomes.values() for it in level["outcomes"][:MOST])]
    plays, is_mixed = [], len(set(own["levels"])) > 1
    for at, order in enumerate(orders):
        if order not in orders[:at]:
            plays += [it for it in its.lines("permute", "--order", " ".join(order), "--levels", "--json") if it["level"] or is_mixed]
    return {"opens": opens, "outcomes": outcomes, "plays": [*plays, own] if is_raw else plays}


def of_log(hek, text):
    """What is said of a log as serializable, and then at each level."""
    its = Asked(hek, text, "log.jsonl")
    return {"opens": {"level": "serializable", "order": []}, "answers": [*its.lines("history", "--level", "serializable", "--json"), *its.lines("history", "--levels", "--json")]}


def of_all(hek, schedules):
    """The plays of all schedules, by name."""
    return {it["name"]: of_log(hek, it["text"]) if it["text"].lstrip().startswith("{") else of_schedule(hek, it["text"], it["asked"]) for it in schedules}
