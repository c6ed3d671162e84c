#!/usr/bin/env python3
"""Writes docs/HEADLINE.md: the contract of `overlay`, and each definition that its winding clauses stand on.

    scripts/headline.py           fails where the page is not what the script would write
    scripts/headline.py --write   writes the page

The definitions are found by their names: from those that the clause and its record cite to those that each of them
cites. TOLD has them in reading order, each with a sentence, and STD has what they take of Rattle's library. The script
fails where either list lacks a name or has one too many. A table has what the contract takes of the coordinate type,
from the traits of numbers and their implementations. Run it at the top of the repository.
"""

import re
import sys
from dataclasses import dataclass, field
from pathlib import Path

from coordinates import table_of_members
from specs import CRATES

PAGE = Path("docs", "HEADLINE.md")
CALL = CRATES / "i_overlay" / "src" / "overlay.rt"
RESULT = ("overlay_extract.specs.Results", "IsResult")
GIVEN = ("overlay_extract.specs.GivenRegion", "WindsRoundGiven")
QUERY = ("i_overlay.specs.Queries", "BuilderExtracts")
# the clauses of the contract that tell of windings, each with its record, whose field `winds` does so
CLAUSES = {"result": RESULT, "given": GIVEN}
# what contracts see of the builder, `self.old` and `self.new`
BUILDER = ("i_overlay.specs.Builder", "Builder")
HEAD = re.compile(r"(?:abbrev pub|pub record|pub data) (\w+)")
IMPORT = re.compile(r"(?:pub |ghost )?use Rattle\.([\w.]+)\.\{(.*)\};?$")
WORD = re.compile(r"[^\s(){};,.]+")
SEEN = re.compile(r"^( *)(?:abbrev pub|pub) ")
COLUMNS = 120

# (heading, [(name, sentence)])
TOLD = [
    ("Points, steps and edges", [
        ("Point", "A point with whole coordinates, as every point of an input and of an answer is."),
        ("PlanePoint", "A point (x / d, y / d) of the plane, with whole x, y and d, where d is positive."),
        ("Step", "The way straight on from one whole point to another: a half-edge."),
        ("Edge", "A segment, whose end `a` is the smaller one."),
        ("point_eq", "Tells whether two whole points are one."),
        ("point_lt", "Tells whether p is smaller than q: by x, and for equal x by y."),
        ("is_forward", "Tells whether a step goes from its smaller to its larger end."),
        ("edge_of", "The edge that a step walks along."),
        ("sign_of", "1 for a step from the smaller end to the larger, -1 for a step back."),
        ("steps_between", "The step between two points; equal points have none."),
        ("steps_through", "The steps from a point through a list of points."),
        ("steps_of", "The steps of a closed contour: each point to the next, and the last to the first."),
        ("steps_of_shapes", "The steps of all contours of all shapes."),
    ]),
    ("On an edge, and below a point", [
        ("line_form", "The cross product of the vectors from `a` to `b` and from `a` to (x / d, y / d), times d."),
        ("side", "Positive where p lies to the left of the way from `a` to `b`, negative to the right, 0 on the line."),
        ("IsBetween", "z lies between u and v, or is one of them."),
        ("IsOn", "p lies on the closed segment."),
        ("IsOff", "p lies on none of the edges."),
        ("is_strictly_below", "Tells whether a ray straight down from p crosses the edge: p is above the line, and its "
         "x lies in the edge's span, whose right end is left out so that a corner counts once."),
    ]),
    ("Windings", [
        ("total", "The sum of a function over a list."),
        ("total_below", "The sum of a count over the edges that lie below p."),
        ("winding", "How often steps wind round p: the signs of the steps below p, summed. Counterclockwise counts 1."),
        ("Counts", "How often the subject and the clip pass an edge from `a` to `b`, less how often back. The two "
         "marks are set by strings alone."),
        ("CountedEdge", "An edge with its counts, as the builder holds it."),
        ("ends_of", "The edge without its counts."),
        ("subj_of", "How often the subject passes the edge."),
        ("clip_of", "How often the clip passes the edge."),
        ("winding_by", "The winding of the subject, or of the clip, at p: its counts below p, summed."),
    ]),
    ("Rules", [
        ("FillRule", "The four fill rules."),
        ("is_filled", "Tells whether a winding is filled under a fill rule."),
        ("OverlayRule", "The seven overlay rules."),
        ("rule_holds", "Tells whether the overlay rule takes a point that the subject fills or not, and the clip fills "
         "or not."),
        ("rules_hold", "Tells whether both rules hold of a winding of the subject and a winding of the clip."),
    ]),
    ("What is asked for", [
        ("ContourDirection", "The direction in which outlines run; holes run the other way."),
        ("IntOverlayOptions", "The options of a builder."),
        ("Solver", "How edges are split where they meet."),
        ("Builder", "What contracts see of a builder, by the view that `Overlay` has in its source: `self.old` before "
         "the call, `self.new` after it."),
        ("Asked", "The two rules and the options, as the definitions read them."),
        ("asked", "What the arguments of `overlay` and the builder's options ask for."),
        ("region_asked", "The region asked for: where both rules hold of the windings."),
        ("Hand", "A side of a step: left or right."),
        ("is_left_hand", "Tells whether the side is the left one."),
        ("filled_hand", "The side of each step on which the region lies: the left one for counterclockwise output."),
        ("filled_asked", "That side, for the direction that the options ask for."),
    ]),
    ("The winding clauses", [
        ("once_round", "1 for counterclockwise output, -1 for clockwise."),
        ("wanted_winding", "The winding that is wanted at p: once round the region, and 0 elsewhere."),
        ("WindsRoundRegion", "At each point of the plane off the edges the steps have the winding that is wanted."),
        ("AreWithinHalves", "Both distances of two points, in x and in y, are at most k/2."),
        ("IsFarFromEdge", "Each point of an edge is more than k/2 away from p, in x or in y."),
        ("IsFarFrom", "So is each point of each edge of a list."),
        ("WindsRoundFarPoints", "At each point far from the given edges the steps have the winding that is wanted of "
         "these."),
    ]),
    ("How the program's values are read", [
        ("IntPoint", "A point of the program."),
        ("plain_point", "The whole point of a program's point; `whole` gives the number of a coordinate: `I.whole`."),
        ("plain_points", "The whole points of a list."),
        ("paths_of_shape", "The whole points of each contour of a shape."),
        ("plain_shapes", "The whole points of each contour of each shape."),
    ]),
]
# what the definitions take of Rattle's library
STD = {
    "≡": "equal", "⊎": "or", "All": "holds of each entry of a list",
    "Bool": "", "true": "", "false": "", "cond": "the first where a test is true, else the second",
    "not": "", "&&": "", "||": "", "==": "",
    "ℕ": "", "%": "", "nat_abs": "a whole number without its sign", "ℤ": "",
    "pos": "`pos n` is n", "negsuc": "`negsuc n` is -(n + 1)", "+ℤ": "", "-ℤ": "", "*ℤ": "", "<ℤ": "", "≤ℤ": "",
    "int_lt": "less, as a test", "int_le": "at most, as a test", "int_eq": "equality of whole numbers, as a test",
    "List": "", "[]": "", "∷": "an entry before a list", "++": "",
    "map": "",
    "flat_map": "the lists that a function gives of each entry, one behind the other",
    "Vec": "a vector of the program, whose field `items` is its list",
    "Width": "a number of bits, as `w64`", "Option": "",
    "IfOk": "`IfOk r P` is `P x` of a result `Ok x`, and true of an error",
}
TOP = """# The headline, whole

Made by `scripts/headline.py --write`.

The headline of [README](../README.md#what-is-guaranteed) is two clauses of the contract of `Overlay::overlay`. All that
they cite of windings stands here: each definition cites only those above it and Rattle's library.

## The contract

`self.old.edges` is what the builder holds before the call: the edges of the contours that were added, or the
arrangement that an earlier query left. `self.new.edges` is the arrangement after the call, and `result` the answer.
Field `winds` of clause `result` is the first sentence, of the arrangement. Field `winds` of clause `given` is the
second one, of the edges before. There k is the number of rounds that moved some point, at most one by snap rounding
(field `few_moving` of `IsArranged`). The law `snapped_winds_far` (`crates/i_overlay/src/snapped_far.rt`) says it
outright for snap rounding, also of calls that leave no builder.
"""
NOTATION = """## Notation

A name that begins with a capital is a statement or a type; any other is a function or a value. `A → B` is a function,
or "A implies B"; `(x : X) → ..` is "for each x"; `A × B` is "both". `λ x. ..` is a function. `record { .. }` is a
record, and `r.f` its field f. `abbrev` and `pub` are left out. From Rattle's library come, beside the usual signs:
"""
TYPE = """## The coordinate type

`I` is the type of coordinates, and the contract takes of it:
"""
REST = """## What the rest of the contract adds

`scripts/specs.py` prints the definitions, [DEFINITIONS](DEFINITIONS.md) tells them in plain words.
"""


@dataclass
class Block:
    """A definition: its module and name, its comment, its text below that, and where it is imported from."""

    module: str
    name: str
    comment: list[str] = field(default_factory=list)
    text: list[str] = field(default_factory=list)


class Specs:
    """The definitions of all crates by module and name, and each module's imports."""

    def __init__(self) -> None:
        self.blocks: dict[tuple[str, str], Block] = {}
        self.imports: dict[str, dict[str, tuple[str, str]]] = {}
        for file in sorted(CRATES.glob("*/specs/*.antt")):
            self.read(f"{file.parts[1]}.specs.{file.stem}", file.read_text().split("\n"))

    def read(self, module: str, lines: list[str]) -> None:
        """Reads a file, whose definitions stand apart by empty lines."""
        imports = self.imports[module] = {}
        block = Block(module, "")
        for line in lines:
            if found := IMPORT.match(line):
                for both in found[2].split(","):
                    name, _, used = both.strip().partition(" as ")
                    imports[used or name] = (found[1], name)
            elif not line:
                block = Block(module, "")
            elif not block.name and line.startswith("--"):
                block.comment.append(line.removeprefix("--").strip())
            else:
                if not block.name and (head := HEAD.match(line)):
                    block.name = head[1]
                    self.blocks[module, head[1]] = block
                block.text.append(line)

    def cited(self, block: Block, text: str) -> list[tuple[str, str]]:
        """The module and the name of each definition, or of Rattle's library, that a text of a block's module cites."""
        code = "\n".join(it for it in text.split("\n") if not it.lstrip().startswith("--"))
        words = {*WORD.findall(code), *re.findall(r"\w+", code)}
        found = [(block.module, it) for it in words if (block.module, it) in self.blocks and it != block.name]
        for used, source in self.imports[block.module].items():
            if all(part in words for part in used.split("◌") if part):
                found.append(source)
        return found

    def closure(self, begun: list[tuple[str, str]]) -> list[tuple[str, str]]:
        """What definitions stand on, themselves included."""
        found, left = [], list(begun)
        while left:
            key = left.pop()
            while key not in self.blocks and key[1] in self.imports.get(key[0], {}):
                key = self.imports[key[0]][key[1]]
            if key not in found:
                found.append(key)
                block = self.blocks.get(key)
                left += self.cited(block, "\n".join(block.text)) if block else []
        return found


def declared(module: str, name: str) -> list[str]:
    """The declaration of a type of the program, without its comments and attributes."""
    crate = module.split(".")[0]
    for file in sorted(Path(CRATES, crate, "src").rglob("*.rt")):
        if found := re.search(rf"^pub (?:enum|struct) {name}\b.*?^}}", file.read_text(), re.M | re.S):
            return [it for it in found[0].split("\n") if not it.strip().startswith(("//", "#["))]
    raise SystemExit(f"headline: {module} declares no {name}")


def told(specs: Specs, found: list[tuple[str, str]]) -> str:
    """The definitions of the winding clauses, under their headings, each below its sentence."""
    names = {name: (module, name) for module, name in found}
    out = ""
    for heading, items in TOLD:
        texts = []
        for name, sentence in items:
            block = specs.blocks.get(names[name])
            text = block.text if block else declared(names[name][0], name)
            texts.append("\n".join([wrapped(f"-- {sentence}", "-- "), *bare(text)]))
        out += f"\n## {heading}\n\n```text\n" + "\n\n".join(texts) + "\n```\n"
    return out


def bare(text: list[str]) -> list[str]:
    """Lines of definitions without words on who may name them."""
    return [SEEN.sub(r"\1", it) for it in text]


def wrapped(text: str, dent: str = "") -> str:
    """A text, broken into lines of the repository."""
    lines, line = [], ""
    for word in text.split(" "):
        if line and len(line) + 1 + len(word) > COLUMNS:
            lines, line = [*lines, line], dent + word
        else:
            line = f"{line} {word}" if line else word
    return "\n".join([*lines, line])


def fields_of(block: Block) -> list[tuple[str, str, list[str]]]:
    """A record's fields in order: the comment or heading above each, its name, and its lines."""
    fields, comment = [], []
    for line in block.text[1:]:
        text = line.strip()
        if text.startswith("--"):
            comment = [] if text.startswith("-- ----") else [*comment, text.removeprefix("--").strip()]
        elif text.startswith("pub "):
            fields.append((" ".join(comment), text.split()[1], [text]))
            comment = []
        elif fields:
            fields[-1][2].append(text)
    return fields


def rest(specs: Specs, key: tuple[str, str], skipped: str = "") -> str:
    """The fields of a record, with their comments."""
    out = "\n"
    for comment, name, _ in fields_of(specs.blocks[key]):
        if name != skipped:
            out += wrapped(f"- `{name}`: {comment}" if comment else f"- `{name}`", "  ") + "\n"
    return out


def notation() -> str:
    """What is taken of Rattle's library."""
    words = [f"`{name}` ({meaning})" for name, meaning in STD.items() if meaning]
    return f"\n{NOTATION}\n{wrapped(', '.join(words))}.\n"


def check_names(specs: Specs, found: list[tuple[str, str]]) -> None:
    """Fails where the lists of the script have not just the names that the clauses stand on."""
    ours = {name for module, name in found if not module.startswith("std.") and is_told(specs, module, name)}
    std = {name.strip("◌") for module, name in found if module.startswith("std.")}
    for known, are, what in ((set(STD), std, "STD"), ({it for _, items in TOLD for it, _ in items}, ours, "TOLD")):
        if known != are:
            raise SystemExit(f"headline: {what} lacks {sorted(are - known)}, and has too much {sorted(known - are)}")


def is_told(specs: Specs, module: str, name: str) -> bool:
    """Whether a name has a declaration of its own; cases of types stand in that of their type."""
    return (module, name) in specs.blocks or ".declared." in module and "TheVariants" not in module


def contract() -> str:
    """The contract of the call."""
    found = re.search(r"^    pub fn overlay\(.*?(?=^    \{)", CALL.read_text(), re.M | re.S)
    return "\n".join(it.removeprefix("    ") for it in found[0].rstrip().split("\n"))


def up_to_winds(block: Block) -> str:
    """A record's text up to its field `winds`, and two dots if there is more."""
    lines = [it.strip() for it in block.text]
    at = next(place for place, it in enumerate(lines) if it.startswith("pub winds ")) + 1
    while at < len(lines) and not lines[at].startswith(("pub ", "--")):
        at += 1
    return "\n".join(bare([*block.text[:at], *["  .."][: len(lines) - at]]))


def roots(specs: Specs) -> list[tuple[str, str]]:
    """What the winding clauses cite themselves: in the contract beside their records, and in the fields of these."""
    specs.read("contract", [it for it in CALL.read_text().split("\n") if it.startswith("ghost use")])
    found = [BUILDER]
    for name, key in CLAUSES.items():
        clause = re.search(rf"ensures {name} \{{(.*?)\}}$", contract(), re.M | re.S)
        fields = {name: "\n".join(lines) for _, name, lines in fields_of(specs.blocks[key])}
        found += [it for it in specs.cited(Block("contract", ""), clause[1] if clause else "") if it != key]
        found += specs.cited(specs.blocks[key], fields["winds"])
    return found


def made() -> str:
    """The page."""
    specs = Specs()
    found = specs.closure(roots(specs))
    check_names(specs, found)
    records = "\n\n".join(up_to_winds(specs.blocks[it]) for it in CLAUSES.values())
    count = sum(1 for it in found if it in specs.blocks)
    lines = sum(len(specs.blocks[it].text) for it in found if it in specs.blocks)
    out = f"{TOP}\n```rust\n{contract()}\n```\n\n```text\n{records}\n```\n"
    out += f"\nThe winding clauses stand on {count} definitions of {lines} lines, and on types of the program.\n"
    values = {block.name: block.text[-1].removeprefix(f"{block.name} = ") for block in specs.blocks.values()}
    out += notation() + f"\n{TYPE}\n" + table_of_members(contract(), values) + told(specs, found)
    out += f"\n{REST}"
    for key in CLAUSES.values():
        out += f"\n### `{key[1]}`\n" + rest(specs, key, "winds")
    return out + f"\n### `{QUERY[1]}`\n" + rest(specs, QUERY)


def main() -> int:
    """Writes the page, or compares it."""
    page = made()
    if "--write" in sys.argv[1:]:
        PAGE.write_text(page)
    elif not PAGE.is_file() or PAGE.read_text() != page:
        print(f"headline: {PAGE} is not made of the sources: run scripts/headline.py --write")
        return 1
    return 0


if __name__ == "__main__":
    sys.exit(main())
