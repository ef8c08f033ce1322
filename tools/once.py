"""What stands in one source alone: the options of the commands, the levels, and what each crate is for. For tools/references.

Options: the rows of crates/hek_command_line/src (rows.rt, *_rows.rt) say what each is. A page shows those of a command below the comment
OPTIONS_OF, and those that several commands share below the same comment with SHARED in place of the command; tools/references writes them.
Levels: docs/LEVELS.md has those of logs, the section of docs/FORMATS.md on `hek check` those of the machine. Crates: their READMEs, of which
docs/ARCHITECTURE.md shows the first sentences; docs/PROOFS.md has what is proved of each.
"""
import glob
import re

import kit

ROWS = "crates/hek_command_line/src"
SHARED = "several commands"
OPTIONS_OF = re.compile(r"(<!-- options of (?:hek )?([a-z ]+), written by tools/references --write -->\n)((?:\|.*\n)*)")
# A text of Rattle, and an argument: its name, how it is given, what it means.
TEXT = r'"((?:[^"\\]|\\.)*)"'
ARGUMENT = re.compile(r'given!\(\s*"([^"]+)"\s*=>\s*(.+?),\s*' + TEXT + r"\s*,?\s*\)", re.S)
CONSTANT = re.compile(r"pub const (\w+): Argument =\s*(given!\(.*?\));\n", re.S)
ROW = re.compile(r"const \w+: &Row = &Row \{\n(.*?)\n\};", re.S)
OTHERS = re.compile(r'Others\(\s*"([^"]+)",\s*&\[(.*?)\]', re.S)
# A row of a table, or an entry of a list, that begins with an option.
LISTED = re.compile(r"^(?:\||[-*] ) ?`(?:-\w, |-\w`, `)?--([a-z-]+)[^`]*`")
LEVELS = "docs/LEVELS.md"
# The pages and sections that may have a table of levels.
LEVEL_TABLES = {(LEVELS, ""), ("docs/FORMATS.md", "hek check")}
# The pages that may have a table of crates.
CRATE_TABLES = {"docs/ARCHITECTURE.md", "docs/PROOFS.md"}
# What an option excludes that has few beside it.
ALL = "any other"
# How many rows make a table one of levels, or of crates.
MANY = 2


class Argument:
    """A word or an option of a command, as its row says it."""

    def __init__(self, name, form, text):
        self.name, self.form, self.text = name, form, re.sub(r"\\(.)", r"\1", text)
        self.is_placed = form.startswith("Form::Placed")

    def label(self):
        """How it is given, as the help prints it."""
        if self.is_placed:
            times = re.search(r"Times::(\w+)", self.form)[1]
            return {"One": "@", "Maybe": "[@]", "Several": "@..", "Any": "[@..]"}[times].replace("@", self.name)
        value = re.match(r'Form::(?:Valued|Needed)\("([^"]+)"', self.form)
        if value:
            return f"--{self.name} {value[1]}"
        return {"Form::Flag": f"--{self.name}", "Form::Output": "-o OUT"}.get(self.form, f"--{self.name}[=HOW]")

    def cell(self):
        """Its name in a text."""
        return f"`{self.name}`" if self.is_placed else f"`--{self.name}`"


class Command:
    """The row of a command: its arguments in order, which of them it shares with others, and what excludes or needs what."""

    def __init__(self, text, shared):
        self.name = re.search(r'\bname: "([^"]+)"', text)[1]
        listed = text.partition("arguments: &[")[2].partition("\n    rivals:")[0]
        self.arguments, self.own = [], []
        for found in re.finditer(f"{ARGUMENT.pattern}|\\b([A-Z][A-Z_]+)\\b", listed, re.S):
            argument = shared[found[4]] if found[4] else Argument(*found.groups()[:3])
            self.arguments.append(argument)
            self.own += [] if found[4] else [argument]
        rivals, _, needs = text.partition("\n    rivals:")[2].partition("\n    needs:")
        self.rivals, self.needs = others(rivals), others(needs)

    def named(self, name):
        return next(it for it in self.arguments if it.name == name)

    def excluded(self, name, done):
        """What an option can't stand beside, each pair once: those that `done` has were said of another option."""
        rivals = {it for one, many in self.rivals for it in many if one == name}
        rivals |= {one for one, many in self.rivals if name in many}
        options = [it.name for it in self.arguments if not it.is_placed]
        left = [it for it in options if it not in rivals and it != name]
        if len(rivals) > len(left) + 3:
            return ALL + (f" but {listing(f'`--{it}`' for it in left)}" if left else "")
        return listing(f"`--{it}`" for it in options if it in rivals and it not in done)

    def rows(self):
        """The table of its own arguments."""
        lines, done = ["| Word | What it does |", "|---|---|"], set()
        most = [it.name for it in self.own if self.excluded(it.name, set()).startswith(ALL)]
        for it in self.own:
            said = self.excluded(it.name, done | (set(most) - {it.name} if it.name not in most else set()))
            needed = [self.named(other).cell() for one, many in self.needs if one == it.name for other in many if f"--{other}" not in it.text]
            parts = [it.text, *([f"only with {listing(needed)}"] if needed else []), *([f"not with {said}"] if said else [])]
            parts += ["required"] if it.form.startswith("Form::Needed") else []
            lines.append(f"| `{it.label()}` | {'; '.join(parts)} |".replace("\\|", "|"))
            done.add(it.name)
        return lines


def others(text):
    return [(one, re.findall('"([^"]+)"', many)) for one, many in OTHERS.findall(text)]


def listing(texts):
    return ", ".join(texts)


def texts():
    """The files of the rows, that of the shared ones first."""
    paths = [f"{ROWS}/rows.rt", *sorted(glob.glob(f"{ROWS}/*_rows.rt", root_dir=kit.ROOT))]
    found = []
    for path in paths:
        with open(f"{kit.ROOT}/{path}", encoding="utf-8") as it:
            found.append(it.read())
    return found


def commands():
    """The rows of all commands, by name, and the arguments that several share, in the order of their file."""
    front, *rest = texts()
    shared = {name: Argument(*ARGUMENT.match(given).groups()) for name, given in CONSTANT.findall(front)}
    found = [Command(text, shared) for file in rest for text in ROW.findall(file)]
    return {it.name: it for it in found}, list(shared.values())


def shared_rows(rows, shared):
    """The table of what several commands share, each with these commands."""
    lines = ["| Word | What it does | Of |", "|---|---|---|"]
    for it in shared:
        users = listing(f"`{name}`" for name in sorted(rows) if it in rows[name].arguments)
        lines.append(f"| `{it.label()}` | {it.text} | {users} |")
    return lines


def table(name):
    """The lines of the table that a comment names; None where there is no such command."""
    rows, shared = commands()
    if name == SHARED:
        return shared_rows(rows, shared)
    return rows[name].rows() if name in rows else None


def with_options(text):
    """The page with each table of options as the rows give it."""
    return OPTIONS_OF.sub(lambda it: it[1] + "".join(f"{line}\n" for line in table(it[2]) or it[3].splitlines()), text)


def sections(text):
    """The lines of a page outside of fences and of tables from the rows, each with its heading."""
    inside, heading = False, ""
    for line in OPTIONS_OF.sub("", text).split("\n"):
        if re.match(r" *```", line):
            inside = not inside
        elif not inside:
            heading = line.lstrip("# ").strip() if line.startswith("#") else heading
            yield heading, line


def wrong_tables(page, text):
    """Tables of options of a page that aren't what the rows say."""
    for _, name, there in OPTIONS_OF.findall(text):
        made = table(name)
        if made is None:
            yield f"{page}: options of {name}, which is no command"
        elif there.splitlines() != made:
            yield f"{page}: the options of {name} aren't what the rows say: tools/references --write"


def wrong_options(pages):
    """Tables of options that aren't what the rows say, lists of options beside them, and commands without a table."""
    rows, _ = commands()
    seen = [name for text in pages.values() for _, name, _ in OPTIONS_OF.findall(text)]
    known = {it.name for row in rows.values() for it in row.arguments}
    for page, text in pages.items():
        yield from wrong_tables(page, text)
        for heading, line in sections(text):
            found = LISTED.match(line)
            if found and found[1] in known:
                yield f"{page}: a second list of options: `--{found[1]}` under {heading}"
    wanted = [SHARED, *(name for name, row in rows.items() if any(not it.is_placed for it in row.own))]
    for name in wanted:
        if seen.count(name) != 1:
            yield f"{seen.count(name)} tables of the options of {name}: one page has `<!-- options of .. -->` once"


def tables(text):
    """The tables of a page: the heading above, the cells of the first row, and the first cells of the others."""
    found, last = [], False
    for heading, line in sections(text):
        cells = [it.strip() for it in re.split(r"(?<!\\)\|", line)[1:-1]] if line.startswith("|") else []
        if cells and not last:
            found.append((heading, cells, []))
        elif cells and not re.fullmatch(r"[|: -]+", line):
            found[-1][2].append(cells[0])
        last = bool(cells)
    return found


def levels():
    """The words of all levels and guarantees that options take."""
    found = set(re.findall(r'"([a-z-]+)"', re.search(r"pub const LEVEL: Argument.*?&\[(.*?)\]", texts()[0], re.S)[1]))
    for path in glob.glob("crates/*/src/**/promise.rt", root_dir=kit.ROOT, recursive=True):
        with open(f"{kit.ROOT}/{path}", encoding="utf-8") as it:
            listed = re.search(r"pub const WORDS: &'static \[&'static str\] = &\[(.*?)\]", it.read(), re.S)
        found |= set(re.findall(r'"([a-z-]+)"', listed[1])) if listed else set()
    return found


def wrong_levels(pages):
    """Levels that no table says, and tables of levels beside the ones that say what each promises."""
    words, said = levels(), set()
    for page, text in pages.items():
        for heading, _, cells in tables(text):
            named = [it.strip("`* ").lower().replace(" ", "-") for it in cells]
            named = [it for it in named if it in words]
            if (page, "") in LEVEL_TABLES or (page, heading) in LEVEL_TABLES:
                said |= set(named)
            elif len(named) >= MANY:
                yield f"{page}: a second table of levels, under {heading}: {listing(named)}"
    yield from (f"{LEVELS}: no row for the level {it}" for it in sorted(words - said))


def wrong_purposes(pages, purposes):
    """Tables of crates beside those of ARCHITECTURE and PROOFS, and sentences of READMEs that other pages repeat."""
    for page, text in pages.items():
        for heading, _, cells in tables(text):
            named = {it for cell in cells for it in re.findall(r"\bhek_\w+", cell)} & set(purposes)
            if page not in CRATE_TABLES and len(named) >= MANY:
                yield f"{page}: a second table of crates, under {heading}"
        flat = " ".join(text.split())
        for crate, said in purposes.items():
            if len(said) > 40 and said in flat and page not in ("docs/ARCHITECTURE.md", f"crates/{crate}/README.md"):
                yield f"{page}: the purpose of {crate}, which its README has"
