"""Polygons, lines and points of features, by the kinds of geometries, and the places where they stand."""

from __future__ import annotations

from dataclasses import dataclass, field
from typing import Any, NamedTuple, Sequence

from .contour import points_in

POLYGONS = ("Polygon", "MultiPolygon")
LINES = ("LineString", "MultiLineString")
POINTS = ("Point", "MultiPoint")
KINDS = {*POLYGONS, *LINES, *POINTS}
# (how many lists stand round a point)
DEPTHS = {"Point": 0, "MultiPoint": 1, "LineString": 1, "MultiLineString": 2, "Polygon": 2, "MultiPolygon": 3}
NESTED = 50

Point = Sequence[Any]
Path = list[Any]


class Place(NamedTuple):
    """Where something stands in a file: a feature, or its line where it has one, a geometry in collections, a polygon
    or line, a ring; from 1."""

    feature: int
    geometries: tuple[int, ...] = ()
    part: str = ""
    ring: int = 0
    line: int = 0

    def __str__(self) -> str:
        start = f"line {self.line}" if self.line else f"feature {self.feature}"
        words = [start, *(f"geometry {number}" for number in self.geometries)]
        words += [self.part] * bool(self.part) + [f"ring {self.ring}"] * bool(self.ring)
        return ", ".join(words)


@dataclass
class Part:
    """A polygon, by its rings, or a line, which is its one path; no ring repeats its first point at its end."""

    place: Place
    paths: list[Path]

    @property
    def count(self) -> int:
        """How many paths it has."""
        return len(self.paths)

    @property
    def size(self) -> int:
        """How many points they have."""
        return sum(map(len, self.paths))


class PlainLine(Part):
    """A line of points of two finite numbers of Python's own, whose coordinates stand in a row."""

    def __init__(self, place: Place, row: list[Any]) -> None:  # pylint: disable=super-init-not-called
        self.place, self.row = place, row

    @property
    def paths(self) -> list[Path]:  # type: ignore[override]
        """Its one path, whose points are made where they are asked for."""
        return [points_in(self.row)]

    @property
    def count(self) -> int:
        return 1

    @property
    def size(self) -> int:
        return len(self.row) // 2


class PlainPolygon(Part):
    """A polygon of rings of such points, without the first one again at the end, whose coordinates stand in rows."""

    def __init__(self, place: Place, rows: list[list[Any]]) -> None:  # pylint: disable=super-init-not-called
        self.place, self.rows = place, rows

    @property
    def paths(self) -> list[Path]:  # type: ignore[override]
        """Its rings, whose points are made where they are asked for."""
        return [points_in(row) for row in self.rows]

    @property
    def count(self) -> int:
        return len(self.rows)

    @property
    def size(self) -> int:
        return sum(map(len, self.rows)) // 2


@dataclass
class Feature:
    """A geometry's polygons or lines, and the members of its feature."""

    place: Place
    parts: list[Part] = field(default_factory=list)
    members: dict[str, Any] = field(default_factory=dict)
    is_null: bool = False

    @property
    def number(self) -> int:
        """Its number in the file, from 1."""
        return self.place.feature

    @property
    def paths(self) -> list[Path]:
        """The paths of all parts."""
        return [path for part in self.parts for path in part.paths]
