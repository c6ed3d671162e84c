#!/usr/bin/env python3
"""Writes docs/THEOREMS.md: the laws of all crates, by the first sentences of their comments.

    scripts/theorems.py           fails where the page is not what the script would write
    scripts/theorems.py --write   writes the page

A law is a public function with a contract and an empty body, or one of CALLS, and needs a comment. Above the laws of a
file stands the file's first comment, or the text of NOTES, which has conditions that they share. Run it at the top of
the repository; `.ci/definitions` does.
"""

import re
import sys
from collections.abc import Callable
from dataclasses import dataclass
from pathlib import Path

from headline import wrapped
from specs import CRATES
from workspace import crate_uses

PAGE = Path("docs", "THEOREMS.md")
FUNCTION = re.compile(r"pub fn (\w+)")
# laws with a body
CALLS = {"equality_of_points", "one_tiling_of_paths", "memory_alone_refuses_tiles"}
# laws of the second section, beside those in files `only_*`
ONLY_FILES = {"array_laws", "one_input"}
ONLY_LAWS = {"one_outcome", "one_list_of_vectors", "one_list_of_vector_shapes"}
NOTES = {
    "overlay_plane/arranging": "Where k rounds moved a point; k is at most 1 by snap rounding.",
    "overlay_plane/meeting": "The edges lead forward.",
    "overlay_plane/order": "For a settled list.",
    "overlay_plane/side": "For a settled list with balanced counts.",
    "overlay_plane/greatest": "For an arrangement with balanced counts.",
    "overlay_plane/region": "For a ruled list.",
    "overlay_plane/node": "For a planar list and any balanced count.",
    "overlay_plane/spoke": "For a planar list and any balanced count.",
    "overlay_plane/leftmost": "Let every edge that starts before q, \"that point\", count nothing.",
    "overlay_plane/next_step": "Steps alternate where, round every node, between two that leave one arrives, and "
    "between two that arrive one leaves. They lead on by a hand where a step leaves at the end of each, and no two "
    "have one next step by it.",
    "overlay_plane/beside_orbits": "For alternating steps along the edges of a planar list, and a part of them with "
    "balanced counts.",
    "overlay_plane/next_winding": "For alternating steps along the edges of a planar list.",
    "overlay_plane/contours": "For steps that alternate, or lead on by one hand.",
    "overlay_plane/groups": "For alternating steps along edges of a planar list.",
    "overlay_plane/contour_winding": "For a ruled list, any rule and any two counts, in the output direction.",
    "overlay_plane/kept_contours": "For a ruled list; contours are kept that pass a test. To be bound, each walks "
    "along no edge twice, and different ones meet in ends alone. No two of their edges filled above are equal, nor two "
    "filled below.",
    "overlay_plane/shapes_alone": "In the output direction, where the test keeps each contour.",
    "overlay_plane/predicates": "`regions_reach_edges` and `edges_tell_predicates` are of a planar list with balanced "
    "counts, and of rules that do not hold of (0, 0).",
    "overlay_extract/slicing/filled_sides": "For an arrangement with balanced counts.",
    "overlay_string/laws": "For a list whose edges lead forward.",
}
# beginnings of a comment whose next sentence states the law: by itself, or of what the first one takes
BEFORE = ("Bounds ", "Returns ")
BEGUN = re.compile(r"(?:By snap rounding take|Takes?) ")
# first words of comments of laws that two answers are equal
EQUAL = ("So ", "Two ")
# a sentence of fewer words than this says what the law's name does
SHORT = 15
# a sentence ends at a colon or semicolon behind this many words
FEW_WORDS = 12
SENTENCES = re.compile(r"(?<=\.) (?=[A-Z])")
TOP = """# Theorems

Made by `scripts/theorems.py --write`.

A law is the contract of a function without a body, or whose body calls such laws alone. Here stands the first sentence
of its comment, or the name alone where that says the law; `scripts/specs.py --contracts CRATE` prints the contracts.

[DEFINITIONS](DEFINITIONS.md) has the words. A *ruled* list is planar and balanced, with a rule on the two windings that
does not hold of (0, 0).
"""
ONLY = """
## Each answer is the only one

Two answers that meet one contract are equal, but for the cases at the end. Laws by name alone say that two answers are
equal, under the conditions that their definitions tell.
"""
OPEN = """
The contracts leave open:

- which of several collinear points is dropped first in paths that are added, so where a path with spikes begins;
- by rounds, to which of two equally near whole points a point is rounded;
- whether two answers to the same arguments are equal of edges with data or filled sides, but of one arrangement;
- which neighbours are joined first among edges with data, and where a joined contour begins;
- whether a point on an edge is contained (`contains_points`);
- the answer of a look-up by an order that does not rise, which ended edges are held, and how many are visited;
- in which order the data of equal edges is merged, and what calls write into a store;
- which refusal comes where several may, what a builder holds after it, and whether memory is refused;
- the room that is taken, and where in a buffer a reversed contour has points that stand in no range.
"""


@dataclass
class Law:
    """A law: its name and its comment."""

    name: str
    comment: str

    def line(self) -> str:
        """The law as an entry of a list."""
        return wrapped(f"- `{self.name}`: {first_of(self.comment)}", "  ") + "\n"


def first_of(comment: str) -> str:
    """The first sentence of a comment, up to a late colon or semicolon, with the next one where it needs that."""
    first, *others = SENTENCES.split(comment)
    if others and first.startswith(BEFORE):
        return others[0]
    if others and BEGUN.match(first):
        return f"{first} {others[0]}"
    begun = re.split("[:;] ", first)[0]
    return begun.rstrip(".") + "." if len(begun.split()) >= FEW_WORDS else first


def laws_of(file: Path) -> list[Law]:
    """The laws of a file, in its order."""
    found, comment, name, contract = [], [], "", ""
    for line in file.read_text().split("\n"):
        if name:
            contract += line
        elif line.startswith("///"):
            comment.append(line.removeprefix("///").strip())
        elif head := FUNCTION.match(line):
            name, contract = head[1], ""
        elif not line.startswith("#["):
            comment = []
        if name and line in {"{}", "{"}:
            if line == "{}" and "ensures" in contract or name in CALLS:
                found.append(law(name, comment))
            name, comment = "", []
    return found


def law(name: str, comment: list[str]) -> Law:
    """A law, which needs a comment."""
    if not comment:
        raise SystemExit(f"theorems: {name} has no comment")
    return Law(name, " ".join(comment))


def entries(laws: list[Law], is_named: Callable[[Law], bool]) -> str:
    """Entries of laws: one for those that are listed by name alone, and one for each other."""
    names = ", ".join(f"`{it.name}`" for it in laws if is_named(it))
    first = wrapped(f"- {names}", "  ") + "\n" if names else ""
    return first + "".join(it.line() for it in laws if not is_named(it))


def says_equal(law: Law) -> bool:
    """Whether a law says that two answers are equal."""
    return law.comment.startswith(EQUAL)


def is_short(law: Law) -> bool:
    """Whether a law's sentence is so short that it says what the name does."""
    return len(first_of(law.comment).split()) < SHORT


def made() -> str:
    """The page."""
    out, only = TOP, ONLY
    for crate in crate_uses():
        begun = False
        for file in sorted(Path(CRATES, crate, "src").rglob("*.rt")):
            place = f"{crate}/{file.relative_to(Path(CRATES, crate, 'src')).with_suffix('')}"
            laws = laws_of(file)
            is_only = file.stem.startswith("only_") or file.stem in ONLY_FILES
            last = [it for it in laws if is_only or it.name in ONLY_LAWS]
            if last:
                only += f"\n`{place}`:\n\n{entries(last, says_equal)}"
            if first := [it for it in laws if it not in last]:
                out += "" if begun else f"\n## `{crate}`\n"
                name = f"`{place.removeprefix(crate + '/')}`"
                text = f"{name}. {NOTES[place]}" if place in NOTES else f"{name}:"
                out += f"\n{wrapped(text)}\n\n{entries(first, is_short)}"
                begun = True
    return out + only + OPEN


def main() -> int:
    """Writes the page, or compares it."""
    page = made()
    if "--write" in sys.argv[1:]:
        PAGE.write_text(page)
    elif not PAGE.is_file() or PAGE.read_text() != page:
        print(f"theorems: {PAGE} is not made of the sources: run scripts/theorems.py --write")
        return 1
    return 0


if __name__ == "__main__":
    sys.exit(main())
