"""Programs, read and computed by themselves: what each step does, by what its transaction has seen, and which invariants hold.

`Program(text)` reads a program. `follow(trace)` says where a trace's events are not the ones that the program computes from the replies of
their own transaction. `broken(rows, committed)` is the line of the first invariant that does not hold. `random_program(dice, most)` makes a
program whose orders are at most so many.
"""
import re

LIMIT, VALUES = 2**127, 2**64
TOKEN = re.compile(r"\s*(?:@(\d+)|(\d+)|([a-z_][a-z0-9_]*)|(!=|<=|>=|[-+*=<>]))")
WRITES, WORKS = ("insert", "update"), ("read", "scan", "insert", "update", "delete")
RELATIONS = {
    "=": lambda a, b: a == b,
    "!=": lambda a, b: a != b,
    "<": lambda a, b: a < b,
    "<=": lambda a, b: a <= b,
    ">": lambda a, b: a > b,
    ">=": lambda a, b: a >= b,
}


def tokens(text):
    found, at = [], 0
    text = text.rstrip()
    while at < len(text):
        it = TOKEN.match(text, at)
        key, number, name, sign = it.groups()
        found.append(("key", int(key)) if key else ("number", int(number)) if number else ("name", name) if name else ("sign", sign))
        at = it.end()
    return found


def split_at(items, where):
    """The parts between the items at which `where` holds."""
    parts = [[]]
    for it in items:
        if where(it):
            parts.append([])
        else:
            parts[-1].append(it)
    return parts


def total(term, value):
    """What a term comes to, or None: a factor without a value, or a number from the limit on, is no number."""
    sums, minus, product = [0, 0], False, None
    for kind, it in [*term, ("sign", "+")]:
        if kind == "sign" and it in "+-":
            sums[minus] += product
            if sums[minus] >= LIMIT:
                return None
            minus, product = it == "-", None
        elif (kind, it) != ("sign", "*"):
            worth = it if kind == "number" else value(kind, it)
            if worth is None:
                return None
            product = worth if product is None else product * worth
            if product >= LIMIT:
                return None
    return sums[0] - sums[1]


def holds(condition, value):
    """Whether each comparison holds; one with a term that is no number does not."""
    for one in split_at(condition, lambda it: it == ("name", "and")):
        place = next(n for n, (kind, it) in enumerate(one) if kind == "sign" and it in RELATIONS)
        left, right = total(one[:place], value), total(one[place + 1 :], value)
        if left is None or right is None or not RELATIONS[one[place][1]](left, right):
            return False
    return True


class Step:
    """A step: its event's words, the term of its value, and its condition."""

    def __init__(self, words, term, condition):
        self.words, self.term, self.condition = words, term, condition

    def does(self, value):
        """The words of its event, `skipped` or `fail`."""
        if self.condition and not holds(self.condition, value):
            return "skipped"
        if self.words == ["fail"]:
            return "fail"
        if self.term is None:
            return " ".join(self.words)
        worth = total(self.term, value)
        return f"{self.words[0]} {self.words[1]} {worth}" if worth is not None and 0 <= worth < VALUES else "fail"


class Program:
    def __init__(self, text):
        self.steps, self.fails, self.always, self.buckets, self.names = {}, set(), [], 1, []
        for number, line in enumerate(text.splitlines(), 1):
            line = line.partition("#")[0]
            words = line.split()
            if words[:1] == ["buckets"]:
                self.buckets = int(words[1])
            elif words[:1] == ["txn"]:
                self.names.append(words[1])
            elif words[:1] == ["always"]:
                self.always.append((number, tokens(line)[1:]))
            elif words and words[0] != "row":
                self.add(words[0], tokens(line)[1:])

    def add(self, name, said):
        parts = split_at(said, lambda it: it == ("name", "if"))
        plain, condition = parts[0], parts[1] if len(parts) > 1 else None
        kind = plain[0][1]
        if kind == "fail" and not condition:
            self.fails.add(name)
        elif kind == "fail":
            self.steps.setdefault(name, []).append(Step(["fail"], None, condition))
        elif kind in WORKS:
            term = plain[2:] if kind in WRITES else None
            self.steps.setdefault(name, []).append(Step([kind, str(plain[1][1])], term, condition))

    def note(self, known, kind, operands, reply):
        """What a reply tells a transaction of keys."""
        if kind == "scan" and reply.startswith("rows"):
            rows = dict(map(int, it.split("=")) for it in reply.split()[1:])
            for key in [it for it in known if it % self.buckets == operands[0]]:
                known[key] = None
            known.update(rows)
        elif reply.startswith("found"):
            known[operands[0]] = int(reply.split()[1])
        elif kind in WRITES and reply == "done":
            known[operands[0]] = operands[1]
        elif kind in ("read", "update", "delete") and reply == "absent" or kind == "delete" and reply == "done":
            known[operands[0]] = None

    def follow(self, trace):
        """What is wrong with the events of a trace, or None."""
        known, place, over = {}, {}, set()
        for line in trace.splitlines():
            said, _, reply = line.partition(" -> ")
            _, name, *event = said.split()
            if not event or name in over:
                continue
            mine, at = known.setdefault(name, {}), place.get(name, 0)
            steps = self.steps.get(name, [])
            if event[0] in (*WORKS, "fail", "finish"):
                look = lambda kind, it: mine.get(it) if kind == "key" else None
                while at < len(steps) and steps[at].does(look) == "skipped":
                    at += 1
                wanted = steps[at].does(look) if at < len(steps) else "finish"
                asked = event == ["fail"] and at == len(steps) and name in self.fails
                if wanted != " ".join(event) and not asked:
                    return f"{line}: {wanted} was to come"
                place[name] = at + 1
                self.note(mine, event[0], list(map(int, event[1:])), reply)
            if reply.startswith("aborted") or reply == "failed" or event[0] == "finish":
                over.add(name)
        return None

    def broken(self, rows, committed):
        """The line of the first invariant that does not hold."""
        worth = lambda kind, it: rows.get(it) if kind == "key" else int(it in committed)
        return next((number for number, condition in self.always if not holds(condition, worth)), None)


def random_term(dice, keys, deep):
    """A term of these keys and small numbers."""
    factor = lambda: f"@{dice.choice(keys)}" if keys and dice.random() < 0.6 else str(dice.choice((0, 1, 2, 3, 5, 10, VALUES - 1 if deep else 7)))
    term = factor()
    for _ in range(dice.choice((0, 1, 1, 2))):
        term += dice.choice("+-*+-") + factor()
    return term


def random_condition(dice, keys):
    one = lambda: f"{random_term(dice, keys, False)} {dice.choice(list(RELATIONS))} {random_term(dice, keys, False)}"
    return one() if dice.random() < 0.7 else f"{one()} and {one()}"


def random_line(dice, name, keys, buckets):
    """A step of one of three keys; `keys` are those that the transaction has seen, and this one's come to them."""
    key = dice.randrange(3)
    kind = dice.choice(("read", "read", "update", "update", "update", "insert", "delete", "scan", "fail"))
    words = [name, kind]
    if kind == "scan":
        words.append("0")
    elif kind != "fail":
        words.append(str(key))
    if kind in WRITES:
        words.append(random_term(dice, sorted(keys), True))
    if kind == "fail" or dice.random() < 0.3:
        words += ["if", random_condition(dice, sorted(keys))]
    if kind == "scan":
        keys.update(it for it in range(3) if it % buckets == 0)
    elif kind != "fail":
        keys.add(key)
    return " ".join(words)


def random_program(dice, others, orders_of, most, level=None, levels=()):
    """A program's text, whose orders at this grain are at most `most`; of each transaction at a level of its own, or at this one."""
    while True:
        names = "abc"[: dice.choice((2, 2, 3))]
        works = {name: dice.randrange(1, 4) for name in names}
        if orders_of([count + others for count in works.values()]) <= most:
            break
    buckets = dice.randrange(1, 4)
    lines = [f"buckets {buckets}", *(f"row {key} {key * 10}" for key in range(3) if dice.random() < 0.8)]
    there = [int(it.split()[1]) for it in lines[1:]]
    lines += [f"txn {name} {level or dice.choice(levels)}" for name in names]
    for name, count in works.items():
        keys = set()
        lines += [random_line(dice, name, keys, buckets) for _ in range(count)]
    lines += [f"{name} fail" for name in names if dice.random() < 0.1]
    if there:
        for _ in range(dice.choice((0, 1, 2))):
            left = random_term(dice, there, False) + "".join(f"+{dice.choice((1, 2, 5))}*{name}" for name in names if dice.random() < 0.4)
            lines.append(f"always {left} {dice.choice(list(RELATIONS))} {random_term(dice, there, False)}")
    return "\n".join(lines) + "\n"
