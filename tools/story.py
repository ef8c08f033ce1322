"""The modules of web/story as one script, for the pages that `hek page` writes, for docs/play.html and for bin/hek.mjs.

Each module becomes a function of its own, so that two may have one name for two things: `Story.NAME` has what it exports.
"""
import re

import kit

FOLDER = f"{kit.ROOT}/web/story"
# The modules, each after those that it uses.
MODULES = ["text", "svg", "story", "layout", "lanes", "rows", "cards", "figure", "log", "view", "ask", "player", "page"]
# Those that draw pictures, for Node.
DRAWING = ["text", "svg", "story", "layout", "lanes", "rows", "figure", "log"]
IMPORT = re.compile(r'^import \{([^}]*)\} from "\./(\w+)\.mjs";$', re.M)
EXPORT = re.compile(r"^export (const|class|function\*?|async function) (\w+)", re.M)


def read(name):
    with open(f"{FOLDER}/{name}", encoding="utf-8") as it:
        return it.read()


def module(name):
    """A module as a function that answers what it exports."""
    text = read(f"{name}.mjs")
    exported = [it[2] for it in EXPORT.finditer(text)]
    text = IMPORT.sub(r"const {\1} = Story.\2;", text)
    text = EXPORT.sub(r"\1 \2", text)
    return f"Story.{name} = (() => {{\n{text}return {{ {', '.join(exported)} }};\n}})();\n"


def script(names=None):
    """The script of these modules, or of all."""
    return "const Story = {};\n" + "".join(map(module, names or MODULES))


def colours():
    """The colours of light and of dark by name, as web/story/svg.mjs has them."""
    text = re.search(r"export const COLOURS = (\{.*?\n\};)", read("svg.mjs"), re.S)[1]
    found = {}
    for theme, body in re.findall(r"(light|dark): \{(.*?)\n  \}", text, re.S):
        found[theme] = dict(re.findall(r'(\w+): "(#\w+)"', body))
    return found


def properties(its):
    return ";".join(f"--{name}:{value}" for name, value in its.items())


def style():
    """The style of a story: its colours, the classes of its pictures, and where its parts stand."""
    light, dark = colours()["light"], colours()["dark"]
    font = re.search(r"const FONT = '(.*)';", read("svg.mjs"))[1]
    pictures = re.search(r"export const STYLE = `(.*?)`;", read("svg.mjs"), re.S)[1].replace("${FONT}", font)
    each = "".join(f".pic .f{t}{{fill:var(--c{t})}}.pic .s{t}{{stroke:var(--c{t})}}" for t in range(8))
    pictures = re.sub(r"\$\{Array.*?\}\)\.join\(\"\"\)\}|\$\{Array[^\n]*\n", lambda it: each + "\n", pictures)
    themes = f"/* The colours, and those in the dark. */\n:root{{{properties(light)}}}\n@media screen and (prefers-color-scheme:dark){{:root:not([data-theme=light]){{{properties(dark)}}}}}\n@media screen{{:root[data-theme=dark]{{{properties(dark)}}}}}\n"
    return themes + pictures + read("story.css")
