"""What a contract takes of the coordinate type `I`, such as `I.whole`, for each type: `scripts/headline.py` tells it.

It is read from the traits of numbers and their implementations, in the source of `overlay_geom`.
"""

import re

from specs import CRATES

NUMBERS = CRATES / "overlay_geom" / "src"
TRAIT, TYPES = "IntNumber", ("i16", "i32", "i64")
MEMBER = re.compile(r"\bI\.([\w.]+\w)")
BLOCK = re.compile(r"^(?:pub trait (\w+)\b|impl (\w+) for (\w+))[^\n]*\{\n(.*?)^\}", re.M | re.S)
# (a comment; then a type with its bound or value, or a ghost with its type or value)
ITEM = re.compile(r"((?:^    // .*\n)*)^    (?:type|ghost) (\w+)(?:: | = )(?:(\w+)|\{ (.*) \});$", re.M)
# of each item of a trait, or of its implementation by a type, its bound or value and its comment
Items = dict[str, tuple[str, str]]


def all_items() -> dict[tuple[str, str], Items]:
    """The items of each trait and type, and of each trait under the type ""."""
    found: dict[tuple[str, str], Items] = {}
    for file in sorted(NUMBERS.rglob("*.rt")):
        for trait, implemented, kind, body in BLOCK.findall(file.read_text()):
            items = found.setdefault((trait or implemented, kind), {})
            for comment, name, word, text in ITEM.findall(body):
                items[name] = (word or text, " ".join(re.findall(r"// (.*)", comment)))
    return found


def member_of(items: dict[tuple[str, str], Items], path: list[str], kind: str) -> tuple[str, str]:
    """The value of a ghost for a coordinate type, and its comment, by the types that lead to it."""
    trait = TRAIT
    for name in path[:-1]:
        trait, kind = items[trait, ""][name][0], items[trait, kind][name][0]
    return items[trait, kind][path[-1]][0], items[trait, ""][path[-1]][1]


def table_of_members(contract: str, values: dict[str, str]) -> str:
    """The table of all that the contract takes of the type; a name among `values` stands as its value."""
    items = all_items()
    out = "| | | " + " | ".join(f"`{it}`" for it in TYPES) + " |\n|" + "---|" * (len(TYPES) + 2) + "\n"
    for path in sorted(set(MEMBER.findall(contract))):
        found = [member_of(items, path.split("."), it) for it in TYPES]
        cells = [f"`{values.get(value, value)}`" for value, _ in found]
        said = re.split("[.,:]", found[0][1])[0]
        out += f"| `I.{path}` | {said} | " + " | ".join(cells) + " |\n"
    return out
