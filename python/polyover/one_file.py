"""The page in one file, which a browser opens without a server: its modules, its worker and the library are inside.

A browser loads no module from a file beside a page that it opened from a file. So each module becomes an address that
holds its text, a `data:` URL. In the page a map of imports names these. A worker has no such map, so its modules are
one: each is a function, in their order, that takes what others have handed out. Chromium takes no address of more than
two million characters, so they stand there without comments and indentation.
"""

from __future__ import annotations

import base64
import json
import posixpath
import re

from .play import ENGINE, WASM, Page

# an import, or what is passed on, from a file beside the module
IMPORT = re.compile(r'(\bfrom\s*|\bimport\s*)"(\.{1,2}/[^"]+\.js)"')
# what a module takes of another, passes on, and hands out, each on a line of its own
TAKEN = re.compile(r'^import \{ ([^}]*) \} from "([^"]+)";$', re.M)
PASSED_ON = re.compile(r'^export (?:\*|\{ ([^}]*) \}) from "([^"]+)";\n', re.M)
LISTED = re.compile(r"^export \{ ([^}]*) \};\n", re.M)
DECLARED = re.compile(r"^export (?=(?:async function|function|class|const) (\w+))", re.M)
UNKNOWN = re.compile(r"^(?:import|export)\b(?!\().*", re.M)
STYLE = re.compile(r'<link rel="stylesheet" href="([^"]+)"([^>]*?) */>')
SCRIPT = re.compile(r'<script type="module" src="([^"]+)"></script>')
# a comment that has its lines for itself, and what a line begins with
COMMENT = re.compile(r"^ *(?:/\*(?:(?!\*/).)*\*/|//[^\n]*)\n", re.M | re.S)
INDENT = re.compile(r"^ +", re.M)
POLICY = re.compile(r'content="default-src[^"]*"')
# nothing is loaded from anywhere: all is inside
ALLOWED = (
    "default-src 'none'; script-src 'unsafe-inline' 'wasm-unsafe-eval' data:; worker-src data:;"
    " style-src 'unsafe-inline'; img-src data:"
)
WORKER = "worker.js"
# (by which the page's map of imports begins each name)
PLAY = "play/"


def address_of(text: str) -> str:
    """An address that holds the text of a module."""
    return f"data:text/javascript;base64,{base64.b64encode(text.encode()).decode()}"


def beside(name: str, other: str) -> str:
    """The name of a module that a module imports."""
    return posixpath.normpath(posixpath.join(posixpath.dirname(name), other))


def modules_from(page: Page, name: str) -> list[str]:
    """The names of a module, and of those that it needs."""
    found = [name]
    for each in found:
        others = (beside(each, other) for _, other in IMPORT.findall(page.text(each)))
        found.extend(other for other in dict.fromkeys(others) if other not in found)
    return found


def with_names(page: Page, name: str) -> str:
    """The address of a module that imports others by their names in the map."""
    return address_of(IMPORT.sub(lambda found: f'{found[1]}"{PLAY}{beside(name, found[2])}"', page.text(name)))


def without_comments(text: str) -> str:
    """The text of a module without comments on lines of their own and without indentation; one that has a literal of
    several lines stays as it is."""
    return text if any(it.count("`") % 2 for it in text.splitlines()) else INDENT.sub("", COMMENT.sub("", text))


def variable_of(name: str) -> str:
    """The variable that holds what a module hands out."""
    return re.sub(r"\W", "_", name)


def as_function(page: Page, name: str) -> str:
    """A statement that runs a module in a function of its own, and holds what it hands out."""
    text, handed = without_comments(page.text(name)), []
    for names, other in PASSED_ON.findall(text):
        held = variable_of(beside(name, other))
        handed += [f"{each}: {held}.{each}" for each in names.split(", ")] if names else [f"...{held}"]
    for names in LISTED.findall(text):
        handed += names.split(", ")
    handed += DECLARED.findall(text)
    text = DECLARED.sub("", LISTED.sub("", PASSED_ON.sub("", text)))

    def taken(found: re.Match[str]) -> str:
        return f"const {{ {found[1].replace(' as ', ': ')} }} = {variable_of(beside(name, found[2]))};"

    text = TAKEN.sub(taken, text)
    unknown = UNKNOWN.search(text)
    assert unknown is None, f"{name}: {unknown[0] if unknown else ''}"
    return f"const {variable_of(name)} = (() => {{\n{text}\nreturn {{ {', '.join(handed)} }};\n}})();\n"


def in_order(page: Page, name: str, found: list[str]) -> list[str]:
    """The names of a module and of those that it needs, each behind those that it needs itself."""
    if name not in found:
        for _, other in IMPORT.findall(page.text(name)):
            in_order(page, beside(name, other), found)
        found.append(name)
    return found


def script_text(value: object) -> str:
    """A value as JSON that can stand in a script of a page."""
    return json.dumps(value).replace("<", "\\u003c")


def page_in_one(page: Page) -> str:
    """The text of the page with all that it needs."""
    text = page.text("index.html")
    start = SCRIPT.search(text)
    assert start, "the page begins with a module"
    table = {PLAY + name: with_names(page, name) for name in modules_from(page, start[1])}
    library = base64.b64encode(page.file(ENGINE + WASM).read_bytes()).decode()
    worker = "".join(as_function(page, name) for name in in_order(page, WORKER, []))
    held = {"worker": address_of(worker), "library": library}
    scripts = (
        f'<script type="importmap">{script_text({"imports": table})}</script>\n'
        f"    <script>globalThis.POLYOVER_HELD = {script_text(held)};</script>\n"
        f'    <script type="module">import "{PLAY}{start[1]}";</script>'
    )
    text = POLICY.sub(lambda _: f'content="{ALLOWED}"', text)
    text = STYLE.sub(lambda found: f"<style{found[2]}>\n{page.text(found[1])}</style>", text)
    return SCRIPT.sub(lambda _: scripts, text)
