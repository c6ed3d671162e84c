"""Geometries as text (WKT), also with the number of their system before them (EWKT)."""

from __future__ import annotations

import re
from typing import Any, Callable, Iterable, Iterator

from .errors import BadInput
from .parts import DEPTHS, NESTED

KINDS = {name.upper(): name for name in (*DEPTHS, "GeometryCollection")}
# (a number ends before a space, a parenthesis or a comma)
TOKEN = re.compile(r"\s*([A-Za-z]+|[(),]|[-+]?(?:[0-9]+\.?[0-9]*|\.[0-9]+)(?:[eE][-+]?[0-9]+)?(?=[\s(),]|$))")
SYSTEM = re.compile(r"\s*SRID\s*=\s*([0-9]{1,9})\s*;", re.IGNORECASE)
END = "the end"
EMPTY = "EMPTY"


def number_in(word: str) -> Any:
    """The number of a word: a whole one exactly, another one as a float."""
    if any(sign in word for sign in ".eE"):
        return float(word)
    try:
        return int(word)
    except ValueError:
        raise BadInput(f"no WKT: a whole number of {len(word)} signs is too long") from None


class Words:
    """The words of a text, which are taken one by one."""

    def __init__(self, text: str) -> None:
        self.words: list[str] = []
        self.at = at = 0
        text = text.rstrip()
        while at < len(text):
            found = TOKEN.match(text, at)
            if not found:
                raise BadInput(f"no WKT: {text[at:].strip()[:20]!r}")
            self.words.append(found[1])
            at = found.end()

    def next(self) -> str:
        """The next word, which stays."""
        return self.words[self.at].upper() if self.at < len(self.words) else END

    def takes(self, word: str) -> bool:
        """Whether the next word is this one, which is taken then."""
        is_next = self.next() == word
        self.at += is_next
        return is_next

    def demand(self, word: str) -> None:
        """Takes this word."""
        if not self.takes(word):
            raise BadInput(f"no WKT: {self.next()} in the place of {word}")

    def items(self, read: Callable[[], Any]) -> list[Any]:
        """A list in parentheses, or an empty one."""
        if self.takes(EMPTY):
            return []
        self.demand("(")
        found = [read()]
        while self.takes(","):
            found.append(read())
        self.demand(")")
        return found

    def point(self) -> list[Any]:
        """The numbers of a point: two, or three with a height."""
        start = self.at
        while self.next()[0] in "+-.0123456789":
            self.at += 1
        numbers = self.words[start : self.at]
        if not numbers:
            raise BadInput(f"no WKT: {self.next()} in the place of a number")
        if len(numbers) not in (2, 3):
            raise BadInput(f"no WKT: {len(numbers)} numbers: a point has x and y, and may have a height")
        return list(map(number_in, numbers))

    def loose_point(self) -> list[Any]:
        """A point of several, in parentheses or not."""
        if self.next() != "(":
            return self.point()
        self.demand("(")
        point = self.point()
        self.demand(")")
        return point

    def nested(self, depth: int) -> list[Any]:
        """Points in as many lists."""
        return self.items(self.point if depth == 1 else lambda: self.nested(depth - 1))

    def geometry(self, level: int = 0) -> dict[str, Any]:
        """A geometry, as GeoJSON has it."""
        word = self.next()
        kind = KINDS.get(word.removesuffix("Z"))
        if kind is None:
            raise BadInput(f"no WKT: {word} in the place of {', '.join(KINDS)}")
        self.at += 1
        self.takes("Z")
        if kind == "GeometryCollection":
            if level >= NESTED:
                raise BadInput(f"more than {NESTED} collections in one another")
            return {"type": kind, "geometries": self.items(lambda: self.geometry(level + 1))}
        if kind == "Point":
            found = self.items(self.point)
            if len(found) > 1:
                raise BadInput("no WKT: a POINT of several points")
            return {"type": kind, "coordinates": found[0] if found else []}
        found = self.items(self.loose_point) if kind == "MultiPoint" else self.nested(DEPTHS[kind])
        return {"type": kind, "coordinates": found}


def geometry_in(text: str) -> tuple[int, dict[str, Any]]:
    """The number of the system in a text, or 0, and its geometry."""
    found = SYSTEM.match(text)
    words = Words(text[found.end() :] if found else text)
    geometry = words.geometry()
    if words.next() != END:
        raise BadInput(f"no WKT: {words.next()} behind the geometry")
    return int(found[1]) if found else 0, geometry


def texts_in(lines: Iterable[tuple[int, str]]) -> Iterator[tuple[int, str]]:
    """The texts of geometries, each with the number of its first line: one a line, or in more lines up to the last of
    its parentheses."""
    began, held, depth = 0, "", 0
    for number, line in lines:
        if not held and not line.strip():
            continue
        began, held = (began, held + line) if held else (number, line)
        depth += line.count("(") - line.count(")")
        if depth <= 0:
            yield began, held
            held, depth = "", 0
    if held:
        yield began, held


# ---- out


def number_text(number: Any) -> str:
    """A number, which is read as the same one."""
    return repr(number).removesuffix(".0")


def point_text(point: Any) -> str:
    """The numbers of a point."""
    return " ".join(map(number_text, point))


def nested_text(items: Any, depth: int) -> str:
    """Points in as many lists."""
    if not items:
        return EMPTY
    if depth == 0:
        return f"({point_text(items)})"
    return f"({', '.join(point_text(each) if depth == 1 else nested_text(each, depth - 1) for each in items)})"


def sizes_in(coordinates: Any) -> set[int]:
    """How many numbers the points in lists have."""
    if coordinates and not isinstance(coordinates[0], (list, tuple)):
        return {len(coordinates)}
    return set().union(*map(sizes_in, coordinates))


def has_height(coordinates: Any) -> bool:
    """Whether points have a height, all or none of them."""
    sizes = sizes_in(coordinates)
    if len(sizes) > 1 or not sizes <= {2, 3}:
        raise BadInput(f"points of {' and '.join(map(str, sorted(sizes)))} numbers: all have two or three")
    return 3 in sizes


def written(geometry: dict[str, Any], system: int = 0) -> str:
    """The text of a geometry in a line, with the number of its system where it has one."""
    kind, coordinates = geometry["type"], geometry["coordinates"]
    text = "(" + ", ".join(f"({point_text(each)})" for each in coordinates) + ")" if kind == "MultiPoint" else ""
    head = f"SRID={system};" * bool(system) + kind.upper() + " Z" * has_height(coordinates)
    return f"{head} {text or nested_text(coordinates, DEPTHS[kind])}\n"
