"""Cuts the module of a program into parts that clang compiles side by side, for tools/kit.py.

A part has whole crates of the repository. The functions of libraries that they reach are in each part that reaches them, so that they are inlined
as in one module; a large one is in one part alone. The crates of HOT call each other in the innermost loops, and are in one part.
"""
import collections
import re

HOT = set("hek_rules hek_word hek_txn hek_store hek_visible hek_locks hek_buckets hek_commit hek_deadlock hek_machine hek_worker hek_serial "
          "hek_program hek_permute hek_explore".split())
# The most bytes of a library's function that several parts have.
SMALL = 30_000
NAME = re.compile(r'@("(?:[^"\\]|\\.)*"|[\w.$-]+)')
FUNCTION = re.compile(r"^define .*?^}\n", re.M | re.S)
# What is written while the program runs is in the first part alone.
WRITTEN = re.compile(r"^(@\S+) = private global (.*) zeroinitializer", re.M)


class Module:
    """A module's text: what is outside of functions, and the functions by their names, with what each names."""

    def __init__(self, text, crates):
        self.head, self.bodies, self.crates, at = [], {}, crates, 0
        for found in FUNCTION.finditer(text):
            self.head.append(text[at : found.start()])
            self.bodies[NAME.search(found[0])[1]] = found[0]
            at = found.end()
        self.head = "".join([*self.head, text[at:]])
        self.named = {it: self.names_in(body) for it, body in self.bodies.items()}

    def names_in(self, body):
        return {it for it in NAME.findall(body, body.index("\n")) if it in self.bodies}

    def group(self, name):
        """The crates that stay together of a function, or None of a library's function."""
        crate = re.match(r'"?([\w-]*)', name)[1]
        return "hot" if crate in HOT else crate if crate in self.crates or name == "main" else None

    def size(self, names):
        return sum(len(self.bodies[it]) for it in names)


def balanced(weights, count):
    """Puts each group into one of so many parts, the heaviest first into the lightest."""
    loads, part_of = [0] * count, {}
    for group, weight in weights.most_common():
        part_of[group] = loads.index(min(loads))
        loads[part_of[group]] += weight
    return part_of


def reached(module, names):
    """The functions of libraries that these reach."""
    found, todo = set(), list(names)
    while todo:
        new = {it for it in module.named[todo.pop()] if it not in found and module.group(it) is None}
        found |= new
        todo += new
    return found


def placed(module, count):
    """The functions of each part, and those that other parts may call."""
    weights = collections.Counter()
    groups = {it: module.group(it) for it in module.bodies}
    for it, group in groups.items():
        if group:
            weights[group] += len(module.bodies[it])
    part_of = balanced(weights, count)
    own = [{it for it, group in groups.items() if group and part_of[group] == part} for part in range(count)]
    libraries = [reached(module, it) for it in own]
    users = collections.Counter(it for found in libraries for it in found)
    shown = set().union(*own)
    for it in users:
        if users[it] > 1 and len(module.bodies[it]) > SMALL:
            holders = [part for part in range(count) if it in libraries[part]]
            for part in holders[1:]:
                libraries[part].discard(it)
            shown.add(it)
    return [mine | found for mine, found in zip(own, libraries)], shown


def declaration(body):
    """The line that declares a function of another part."""
    line = re.sub(r"^define (internal )?", "declare ", body[: body.index("\n")])
    return re.sub(r"\s*\{$", "", line) + "\n"


def parts(text, count, crates):
    """The texts of so many modules that together are the program."""
    if count == 1:
        return [text]
    module = Module(text, crates)
    made, shown = placed(module, count)
    texts = []
    for part, names in enumerate(made):
        head = WRITTEN.sub(r"\1 = hidden global \2 zeroinitializer" if part == 0 else r"\1 = external hidden global \2", module.head)
        foreign = set().union(*(module.named[it] for it in names)) - names
        bodies = [module.bodies[it] for it in module.bodies if it in names]
        bodies = [it.replace("define internal", "define hidden", 1) if NAME.search(it)[1] in shown else it for it in bodies]
        texts.append("".join([head, *(declaration(module.bodies[it]) for it in sorted(foreign)), *bodies]))
    return texts
