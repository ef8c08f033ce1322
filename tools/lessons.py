"""The lessons, programs, anomalies and logs for docs/play.html: docs/LESSONS.md and docs/ANOMALIES.md as HTML.

It knows the Markdown that these two pages use, and no more. Steps, lessons and schedules that the prose names become buttons and links.

A list whose items begin with a move in bold, as `- **b waits.** ..`, is said beside the run: each item at its move. What comes before it is said at the
start, what comes after it at the end. The link to play.html above it says where the schedule opens.
"""
import html
import os
import re

LESSON = re.compile(r"^## (\d+)\. (.+): ([a-z0-9-]+(?:, [a-z0-9-]+)*)$", re.M)
STEPS = re.compile(r"\b([Ss]teps?) (\d+(?:(?:, | and | to )\d+)*)")
# A lesson by its number, or a schedule by a name with a hyphen.
PLACE = re.compile(r"\blesson (\d+)|(?<![\w-])[a-z]+(?:-[a-z]+)+(?![\w-])")
MARKED = re.compile(r"(`[^`]+`|\[[^\]]+\]\([^)]+\)|\*\*[^*]+\*\*)")
# The line of a lesson or an anomaly that links to this page.
HERE = re.compile(r"(?m)^In a browser: (.*)$\n?")
# The lines that are for a terminal.
TERMINAL = re.compile(r"(?m)^At a terminal: .*(?:\n.+)*\n")
# The address in a link to this page.
OPENS = re.compile(r"\(play\.html#([^)/@?]+)(?:/([a-z]+)(?:/([^)@?]+))?)?[^)]*\)")
# What the words of a move are of: a kind of move.
MOVES = {"reads": "read", "scans": "scan", "writes": "write", "inserts": "write", "updates": "write", "deletes": "write", "waits": "wait", "commits": "commit",
         "aborts": "abort", "leaves out": "skip", "writes nothing": "miss"}
TIMES = {"second": 2, "third": 3, "fourth": 4}
VERDICTS = {"serializable in another order": "other", "not serializable": "not"}
# The move at which an item is said: `b waits`, `a reads 10, the second time`, `Start`, `End`; in brackets the level or the verdict for which it is.
KEY = re.compile(rf"(?:(Start|End)|([a-z_]\w*) ({'|'.join(sorted(MOVES, key=len, reverse=True))})(?: (\d+))?(?:, the (second|third|fourth) time)?)(?: \((.+)\))?\.")
# What tools/examples reads, and no reader of the page sees.
COMMENT = re.compile(r"(?m)^<!-- .* -->\n")
# Code of more letters may be broken into lines.
WHOLE = 26


def read(path):
    with open(path, encoding="utf-8") as it:
        return it.read()


def escaped(said):
    return html.escape(said, quote=False)


def buttons(numbers):
    return re.sub(r"\d+", r'<button class="step" data-step="\g<0>" aria-label="step \g<0>">\g<0></button>', numbers)


def cells(row):
    return [it.strip() for it in row.strip().strip("|").split("|")]


class Prose:
    """A converter. `names` has the address within the page of each schedule that the prose may name, `numbered` that of each lesson."""

    def __init__(self, names, numbered, has_steps=False):
        self.names, self.numbered, self.has_steps = names, numbered, has_steps

    # ---- within a line

    def linked(self, name, said):
        return f'<a href="#{self.names[name]}">{said}</a>' if name in self.names else said

    def to_place(self, found):
        """A link to a lesson by its number, or to a schedule by its name, if there is such a one."""
        if not found[1]:
            return self.linked(found[0], found[0])
        return f'<a href="#{self.numbered[found[1]]}">{found[0]}</a>' if found[1] in self.numbered else found[0]

    def plain(self, said):
        """Text without marks. Steps, lessons and names with a hyphen can be clicked."""
        said = PLACE.sub(self.to_place, escaped(said))
        if self.has_steps:
            said = STEPS.sub(lambda it: f"{it[1]} {buttons(it[2])}", said)
        return said

    def code(self, said):
        short = ' class="short"' if len(said) < WHOLE else ""
        return self.linked(said, f"<code{short}>{escaped(said)}</code>")

    def link(self, said, to):
        """A link to this page goes to its place; another page of the repository is named."""
        said = re.sub(r"`([^`]+)`", r"<code>\1</code>", escaped(said))
        page, _, place = to.partition("#")
        lesson = re.match(r"\d+", place) if page == "LESSONS.md" else None
        if page == "play.html" or lesson:
            place = self.numbered[lesson[0]] if lesson else place
            return f'<a href="#{place}">{said}</a>' if place else said
        return f"{said} (<code>docs/{html.escape(page)}</code>)" if page else said

    def part(self, said):
        link = re.fullmatch(r"\[([^\]]+)\]\(([^)]+)\)", said)
        if link:
            return self.link(link[1], link[2])
        if said.startswith("**"):
            return f"<b>{self.plain(said[2:-2])}</b>"
        return self.code(said[1:-1]) if said.startswith("`") else self.plain(said)

    def inline(self, said):
        return "".join(self.part(it) for it in MARKED.split(said))

    # ---- tables and lists

    def table(self, rows):
        head, body = cells(rows[0]), [cells(it) for it in rows[2:]]
        if head[0] == "Step":
            return self.steps(body)
        made = ["".join(f'<th scope="col">{self.inline(it)}</th>' for it in head)]
        made += ["".join(f"<td>{self.inline(it)}</td>" for it in row) for row in body]
        return rows_of(made)

    def steps(self, rows):
        """A table of steps, replies and reasons as a list, which a narrow place has room for."""
        made = []
        for step, reply, why in rows:
            numbers, event = re.fullmatch(r"([\d, ]*(?:to \d+)?)\s*(.*)", step).groups()
            event = f'{buttons(numbers.strip())} {self.inline(event)} \u2192 <span class="reply">{self.inline(reply)}</span>'
            made.append(f'<li><p class="event">{event}</p><p class="reply">{self.inline(why)}</p></li>')
        return f'<ul class="steps">{"".join(made)}</ul>'

    def items(self, lines):
        """A list: an item begins with a dash or a number, and its other lines are indented."""
        kind, items = "ul" if lines[0].startswith("- ") else "ol", []
        for line in lines:
            start = re.match(r"(?:- |\d+\. )(.*)", line)
            if start:
                items.append(start[1])
            else:
                items[-1] += " " + line.strip()
        return f"<{kind}>{''.join(f'<li>{self.inline(it)}</li>' for it in items)}</{kind}>"

    # ---- a text

    def block(self, lines):
        """The HTML of the lines of one block."""
        first, heading = lines[0], re.match(r"(#+) (.*)", lines[0])
        if heading:
            level = len(heading[1])
            return f"<h{level}>{self.inline(heading[2])}</h{level}>"
        if first.startswith("```"):
            return f'<pre tabindex="0"><code>{escaped(chr(10).join(lines[1:]))}</code></pre>'
        if first.startswith("|"):
            return self.table(lines)
        if re.match(r"</?details>", first):
            return first
        if re.match(r"- |\d+\. ", first):
            return self.items(lines)
        return f"<p>{self.inline(' '.join(it.strip() for it in lines))}</p>"

    def html(self, text):
        return "\n".join(self.block(it) for it in blocks(COMMENT.sub("", text).split("\n")))


def rows_of(made):
    return f'<div class="table" tabindex="0"><table>{"".join(f"<tr>{row}</tr>" for row in made)}</table></div>'


def blocks(lines):
    """The lines of each block: a heading, a fence without its end, a table, a list, a mark of a fold, or a paragraph."""
    found, at = [], 0
    while at < len(lines):
        start, first = at, lines[at]
        at += 1
        if not first.strip():
            continue
        if first.startswith("```"):
            while at < len(lines) and not lines[at].startswith("```"):
                at += 1
            found.append(lines[start:at])
            at += 1
            continue
        if not re.match(r"#|</?details>", first):
            goes_on = after(first)
            while at < len(lines) and goes_on(lines[at]):
                at += 1
        found.append(lines[start:at])
    return found


def after(first):
    """Whether a line goes on with the block that `first` begins."""
    if first.startswith("|"):
        return lambda it: it.startswith("|")
    if re.match(r"- |\d+\. ", first):
        return lambda it: re.match(r"- |\d+\. | +\S", it)
    return lambda it: it.strip() and not re.match(r"</?details>|```|\||#|- ", it)


# ---- the pages


def title_of(name):
    return name.replace("-", " ").capitalize()


def key_of(lead):
    """The move that an item's lead names, as the page looks for it: {at, level, verdict}; None if it names none."""
    found = KEY.fullmatch(lead)
    if not found:
        return None
    end, txn, verb, key, nth, wanted = found.groups()
    at = end.lower() if end else {"kind": MOVES[verb], "txn": txn, **({"key": key} if key else {}), **({"nth": TIMES[nth]} if nth else {})}
    return {"at": at, **({} if wanted is None else {"verdict": VERDICTS[wanted]} if wanted in VERDICTS else {"level": wanted})}


def leads_of(block):
    """The leads and texts of a list that is said beside a run; None of any other block."""
    if not block[0].startswith("- **"):
        return None
    items = []
    for line in block:
        if line.startswith("- "):
            items.append(line[2:])
        else:
            items[-1] += " " + line.strip()
    found = [re.match(r"\*\*(.+?)\*\* (.*)", it, re.S) for it in items]
    return [(it[1], it[2]) for it in found] if all(found) and key_of(found[0][1]) else None


# The servers and the levels of the table of logs.
SERVERS = {"M": "MariaDB", "P": "PostgreSQL"}
ASKED = {"RU": "read uncommitted", "RC": "read committed", "RR": "repeatable read", "S": "serializable"}


def said_of_log(server, level, what):
    """What the table says of a log, in sentences: its transactions are named as in the picture."""
    said = re.sub(r"\bT(\d+)\b", r"\1", what)
    return f"{SERVERS[server]}, asked for {ASKED[level]}. {said[0].upper()}{said[1:]}."


class Pages:
    """`schedules`, in order: each with its group, name, title and text; where it opens; and what is said at its start, beside its run, and after it."""

    def __init__(self, root):
        self.root, self.schedules = root, []
        self.lessons, self.anomalies = read(f"{root}/docs/LESSONS.md"), read(f"{root}/docs/ANOMALIES.md")
        self.lessons, *programs = re.split(r"(?m)^## Programs: .*\n", self.lessons)
        self.programs = "".join(programs)
        heads = LESSON.findall(self.lessons)
        self.numbered = {number: names.split(", ")[0] for number, _, names in heads}
        self.names = {name: name for _, _, names in heads for name in names.split(", ")}
        self.add_lessons()
        self.add_sections("Programs", "program-", "programs", self.programs)
        self.add_sections("Anomalies", "anomaly-", "anomalies", self.anomalies)
        self.add_logs()

    def add(self, group, name, title, file, heading, prose, body):
        """A schedule, whose section has this heading and this body."""
        intro, asides, after = [f"<h1>{escaped(heading)}</h1>"], [], []
        link = OPENS.search(body)
        for block in blocks(COMMENT.sub("", TERMINAL.sub("", HERE.sub("", body))).split("\n")):
            leads = leads_of(block)
            if leads is None:
                (after if asides else intro).append(prose.block(block))
                continue
            for lead, said in leads:
                key = key_of(lead)
                if key is None:
                    raise SystemExit(f"{name}: {lead!r} names no move")
                asides.append({**key, "html": f"<p>{prose.inline(said)}</p>"})
        opens = {"level": link[2], "order": link[3].split(".") if link[3] else None} if link and link[2] else None
        self.schedules.append({"group": group, "name": name, "title": title, "text": read(f"{self.root}/{file}"), "intro": "\n".join(intro), "asides": asides, "after": "\n".join(after), "asked": opens})

    def add_lessons(self):
        _, *sections = re.split(r"(?m)^(?=## \d)", self.lessons)
        for section in sections:
            number, title, names = LESSON.match(section).groups()
            names, body = names.split(", "), section.partition("\n")[2]
            own = dict(re.findall(r"(?ms)^### ([a-z-]+)\n(.*?)(?=^### |\Z)", body))
            common = re.split(r"(?m)^### ", body)[0]
            for name in names:
                known = {it: to for it, to in self.names.items() if it != name}
                said = f"{common}\n{own[name]}" if own else body
                self.add("Lessons", name, f"{number}. {title_of(name)}", f"examples/{name}.hek", f"{number}. {title}", Prose(known, self.numbered, True), said)

    def add_sections(self, group, prefix, folder, text):
        """The sections `### NAME: TITLE` of a page."""
        sections = re.findall(r"(?ms)^### ([a-z-]+): (.*?)\n(.*?)(?=^##|\Z)", text)
        names = {**self.names, **{it["name"].partition("-")[2]: it["name"] for it in self.schedules if it["group"] == "Programs"}, **{name: prefix + name for name, _, _ in sections}}
        for name, heading, body in sections:
            prose = Prose({it: to for it, to in names.items() if it != name}, self.numbered)
            self.add(group, prefix + name, title_of(name), f"examples/{folder}/{name}.hek", f"{title_of(name)}: {heading}", prose, body)

    def add_logs(self):
        """The logs of examples/histories, whose README has a line for each."""
        table = re.findall(r"(?m)^\| `([a-z0-9-]+)\.jsonl` \| ([MP]) (\w+) \| \d+ \| (.*?) \|$", read(f"{self.root}/examples/histories/README.md"))
        said = {name: said_of_log(server, level, what) for name, server, level, what in table}
        for name in sorted(it[: -len(".jsonl")] for it in os.listdir(f"{self.root}/examples/histories") if it.endswith(".jsonl")):
            body = said.get(name, "")
            self.add("Logs of engines", "log-" + name, title_of(name), f"examples/histories/{name}.jsonl", title_of(name), Prose({}, {}), body)
