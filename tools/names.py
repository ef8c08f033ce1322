"""The public names of the libraries that stay as they are, as tools/interfaces.txt has them, and which of them the sources lack."""
import re

import kit

# What the list says of the names of the prelude.
IN_PRELUDE = {"Vec", "Box", "String", "Option", "Result", "Some", "None", "Ok", "Err", "Drop", "Sync"}
CALL = re.compile(r"([\w:]+)(?:<([^(]*)>)?\((.*?)\)(?: -> (.*))?$")
SHAPE = re.compile(r"(enum|struct|trait) (\w+) \{ ?(.*?) ?\}$")
WORD = re.compile(r"(?<![\w'])[A-Z]\w*")


class Line:
    """A line of the list: a call, or the shape of a type or a trait."""

    def __init__(self, crate, text):
        self.crate, self.text = crate, text
        shape, call = SHAPE.match(text), CALL.match(text)
        if not shape and not call:
            kit.stop(f"tools/interfaces.txt: no call and no shape: {text}")
        self.kind = shape[1] if shape else "call"
        self.path = shape[2] if shape else call[1]
        self.parts = parted(shape[3] if shape else call[3])
        self.bounds, self.answer = (None, None) if shape else (call[2], call[4])
        # The name that the crate must have: a function, or the type or trait before `::`.
        self.declared = self.path.partition("::")[0]

    def types(self):
        """The names of types and traits that the line speaks of, without its own parameters and those of the prelude."""
        payloads = [re.sub(r"^\w+", "", it) for it in self.parts] if self.kind == "enum" else self.parts
        said = " ".join([self.declared, self.bounds or "", self.answer or "", *payloads])
        own = {it.partition(":")[0].strip() for it in parted(self.bounds or "")}
        return set(WORD.findall(said)) - own - IN_PRELUDE


def parted(text):
    """The parts of a text between its commas, where those inside brackets don't count."""
    found, depth, begin = [], 0, 0
    for at, letter in enumerate(text):
        depth += (letter in "([{<") - (letter in ")]}" or letter == ">" and text[at - 1] != "-")
        if letter == "," and depth == 0:
            found.append(text[begin:at].strip())
            begin = at + 1
    return [*found, *filter(None, [text[begin:].strip()])]


def listed():
    """The lines of the list, and for each crate what it names of others."""
    found, uses, crate = [], {}, None
    with open(f"{kit.ROOT}/tools/interfaces.txt", encoding="utf-8") as it:
        lines = [line.partition("#")[0].strip() for line in it]
    for line in lines:
        if re.fullmatch(r"hek_\w+", line):
            crate = line
        elif line.startswith("use "):
            uses.setdefault(crate, []).append(line[len("use ") :])
        elif line:
            found.append(Line(crate, line))
    return found, uses


def exported(crate):
    """What a crate's lib.rt exports, by name."""
    text = kit.texts(crate, ("src",)).get("src/lib.rt", "")
    found = set(re.findall(r"^pub (?:fn|struct|enum|trait) (\w+)", text, re.M))
    for it in re.findall(r"^pub use ([^;]+);", text, re.M):
        found |= set(re.findall(r"\w+(?=\s*[,}]|$)", it))
    return found


def lacking():
    """A line for each name of the list that its crate doesn't export, and for each method that no source has."""
    lines, _ = listed()
    for line in lines:
        if line.crate not in kit.crates():
            yield f"{line.crate}: there is no such crate"
        elif line.declared not in exported(line.crate):
            yield f"{line.crate}: it exports no {line.declared}"
        elif "::" in line.path and not has_method(line):
            yield f"{line.crate}: no {line.path}"


def has_method(line):
    """Whether a source of the crate, or of one below it, has the method."""
    owner, _, name = line.path.partition("::")
    inside = re.compile(rf"^(?:impl\b[^{{\n]*\b{owner}\b|pub trait {owner}\b)[^{{]*\{{.*?^\}}", re.M | re.S)
    sources = (text for it in kit.below([line.crate]) for path, text in kit.texts(it, ("src",)).items() if path.endswith(".rt"))
    return any(re.search(rf"\bfn {name}\b", it) for text in sources for it in inside.findall(text))
