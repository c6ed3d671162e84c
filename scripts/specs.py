#!/usr/bin/env python3
"""Prints the specifications of crates: their definitions, or the contracts of their public calls.

    scripts/specs.py [CRATE ..]               each public definition with its comment, as a page of Markdown
    scripts/specs.py --contracts [CRATE ..]   each public call with its contract, file by file

A definition stands in `crates/*/specs/*.antt`. It is printed with the comment right above it, below the comment at the
head of its file and under the headings of its groups (`-- ---- ..`), with those of its fields or cases that have a
comment of their own. A definition without a comment stands under the one above it, the heading of its group or the head
of its file. Calls are printed as `crates/*/src` has them, without their bodies. Without names all crates are printed.
Run it at the top of the repository.
"""

import argparse
import re
import sys
import textwrap
from collections.abc import Iterator
from pathlib import Path

from workspace import crate_uses

CRATES = Path("crates")
COLUMNS = 120
WHOLE = {"break_long_words": False, "break_on_hyphens": False}
HEADING = re.compile(r"-- -+ (.*)")
ITEM = re.compile(r" *(?:abbrev pub|pub record|pub data) (\w+)")
USED = re.compile(r"pub use \S+\.\{([^}]*)\}")
SHARING = re.compile(r"^ *module .*?\bwhere\n", re.M | re.S)
PART = re.compile(r"(?:pub )?(\w+) : |(\w+ .*?) = ")
OWNER = re.compile(r"(pub trait|trait|impl)\b")
CLAUSE = re.compile(r" *(requires|ensures)\b")
CALL = re.compile(r"( *)(pub )?(?:const )?(?:unsafe )?(?:extern \S+ )?fn \w+")
TOP = """# Definitions of the specifications

Names that begin with a capital are statements and types, the others are functions and values. A comment often goes on
from the one above it; names that stand together share theirs. Single letters are the names that the definition gives
to its arguments.
"""


class Definition:
    """A public definition: its name, its comment, and the comments of its parts, each behind the part's name."""

    def __init__(self, name: str, comment: str) -> None:
        self.names, self.comment, self.parts = [name], comment, []


class Spec:
    """A file of definitions: the comment at its head, and its headings and definitions in order."""

    def __init__(self, file: Path) -> None:
        self.file, self.head, self.items = file, "", []
        self.defined, self.used, self.parts, self.shared, self.bare = [], [], set(), [], []
        # (what is said of definitions that share some arguments is said of the first of them)
        self.read(SHARING.sub("", file.read_text()).splitlines())

    def read(self, lines: list[str]) -> None:
        """Reads the lines of the file."""
        comment, covered = [], False
        for line in lines:
            text = line.strip()
            if text.startswith("--"):
                heading = HEADING.fullmatch(text)
                comment = [] if heading else comment + [text.removeprefix("--").strip()]
                if heading and line == text:
                    self.items.append(heading[1])
                    covered = True
                elif heading and self.items:
                    self.items[-1].parts.append(("", heading[1]))
                continue
            if not self.head and not self.items and comment:
                self.head, comment, covered = " ".join(comment), [], True
            item = ITEM.match(line)
            if item:
                self.define(item[1], " ".join(comment), covered)
                covered = True
            elif self.defined:
                self.give_part(PART.match(text), " ".join(comment))
            self.used += [it.strip() for used in USED.findall(line) for it in used.split(",")]
            comment = []

    def define(self, name: str, comment: str, covered: bool) -> None:
        """Takes a definition, by itself or under the one above it."""
        self.defined.append(name)
        above = self.items[-1] if self.items else None
        if not comment:
            (self.shared if covered else self.bare).append(name)
        if not comment and isinstance(above, Definition) and not above.parts:
            above.names.append(name)
        else:
            self.items.append(Definition(name, comment))

    def give_part(self, part: re.Match | None, comment: str) -> None:
        """Takes a field, or a case, if the line has one."""
        if part:
            self.parts.add(part[1])
            if comment:
                self.items[-1].parts.append((part[1] or part[2], comment))

    def page(self) -> str:
        """What the page says of the file."""
        out = f"\n### {self.file.stem}\n\n{sentence(self.head)}\n"
        for item, before in zip(self.items, [""] + self.items):
            if isinstance(item, str):
                out += f"\n*{plain(item)}*\n"
                continue
            out += "" if isinstance(before, Definition) else "\n"
            names = ", ".join(f"`{it}`" for it in item.names)
            out += f"- {names}: {sentence(item.comment)}\n" if item.comment else f"- {names}\n"
            for name, text in item.parts:
                out += f"  - `{name}`: {sentence(text)}\n" if name else f"  - *{plain(text)}*\n"
        return out


def plain(text: str) -> str:
    """The text, where no sign of it is one of the page's."""
    return re.sub(r"([*<|\\]|(?<!\w)_)", r"\\\1", text)


def sentence(comment: str) -> str:
    """A comment as a sentence."""
    return plain(comment) + ("" if comment.endswith(".") or not comment else ".")


def all_specs() -> dict[str, list[Spec]]:
    """The files of each crate that has some, from the lowest crate up."""
    found = {crate: sorted(Path(CRATES, crate, "specs").glob("*.antt")) for crate in crate_uses()}
    return {
        crate: [Spec(it) for it in files if it.stem != "Lib"] for crate, files in found.items() if len(files) > 1
    }


def definitions(crates: list[str]) -> str:
    """The page of the definitions of some crates."""
    out, specs = TOP, all_specs()
    for crate in crates:
        out += f"\n## {crate}\n\n`crates/{crate}/specs`\n" + "".join(it.page() for it in specs.get(crate, []))
    return "".join(f"{broken(line)}\n" for line in out.splitlines())


def broken(line: str) -> str:
    """The line, broken where it is longer than a line of the repository; an item goes on below its text."""
    dent = re.match(r" *(- )?", line)[0]
    return "\n".join(textwrap.wrap(line, COLUMNS, subsequent_indent=" " * len(dent), **WHOLE)) if line else line


def head_of(lines: list[str], indent: str) -> list[str]:
    """The lines with which a call begins, up to its body."""
    depth = 0
    for number, line in enumerate(lines):
        if number and line.startswith(indent + "{"):
            return lines[:number]
        begins = not CLAUSE.match(line) and depth == 0 and re.search(r" \{\}?$", line)
        if end := begins or re.search(";$", line):
            return [*lines[:number], line[: end.start()]]
        depth += line.count("{") - line.count("}")
    return lines


def calls_in(lines: list[str]) -> Iterator[str]:
    """The public calls of a source with their contracts, each below the type or trait that has it."""
    comment, owner, shown = [], "", ""
    for number, line in enumerate(lines):
        if line.strip().startswith("///"):
            comment.append(line)
            continue
        if line and line[0] not in " }/":
            owner = line if OWNER.match(line) else ""
        call = CALL.match(line)
        if call and (call[2] or owner.startswith("pub trait") or "extern" in call[0]):
            if owner != shown and owner:
                yield owner.rstrip(" {")
            shown = owner
            yield "\n".join([*comment, *head_of(lines[number:], call[1])])
        comment = []


def contracts(crates: list[str]) -> str:
    """The public calls of some crates, file by file."""
    out = ""
    for crate in crates:
        for file in sorted(Path(CRATES, crate, "src").rglob("*.rt")):
            calls = list(calls_in(file.read_text().splitlines()))
            out += f"// {file}\n\n" + "\n\n".join(calls) + "\n\n" if calls else ""
    return out


def main() -> None:
    """Prints what is asked for."""
    parser = argparse.ArgumentParser(description=__doc__, formatter_class=argparse.RawDescriptionHelpFormatter)
    parser.add_argument("crates", nargs="*", metavar="CRATE", help="a crate, of those in crates.txt")
    parser.add_argument("--contracts", action="store_true", help="contracts of calls, in place of definitions")
    given = parser.parse_args()
    if wrong := set(given.crates) - set(crate_uses()):
        parser.error(f"crates.txt has no {', '.join(sorted(wrong))}")
    sys.stdout.write((contracts if given.contracts else definitions)(given.crates or list(crate_uses())))


if __name__ == "__main__":
    main()
