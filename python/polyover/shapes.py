"""Answers as lists that others take as they are, by `__geo_interface__`, or as well-known binary (WKB)."""

from __future__ import annotations

from itertools import chain
from struct import pack
from typing import Any, Callable, Iterable, Sequence

# (kinds of well-known binary)
LINE, POLYGON, LINES, POLYGONS = 2, 3, 5, 6


def ring(contour: Any, restored: Callable[[Any], Any] = tuple) -> tuple[Any, ...]:
    """A contour as a ring: its first point comes again at its end."""
    return tuple(restored(point) for point in [*contour, *contour[:1]])


def points_in_bytes(points: Sequence[Any]) -> bytes:
    """How many points there are, and their coordinates, as well-known binary has them."""
    numbers = list(chain.from_iterable(points))
    return pack(f"<I{len(numbers)}d", len(points), *numbers)


def shapes_in_bytes(shapes: Iterable[Sequence[Any]]) -> bytes:
    """Shapes as a MultiPolygon of well-known binary."""
    parts = []
    for shape in shapes:
        rings = [points_in_bytes([*contour, *contour[:1]]) for contour in shape]
        parts.append(pack("<BII", 1, POLYGON, len(rings)) + b"".join(rings))
    return pack("<BII", 1, POLYGONS, len(parts)) + b"".join(parts)


def paths_in_bytes(paths: Iterable[Sequence[Any]]) -> bytes:
    """Paths as a MultiLineString of well-known binary."""
    parts = [pack("<BI", 1, LINE) + points_in_bytes(path) for path in paths]
    return pack("<BII", 1, LINES, len(parts)) + b"".join(parts)


class Shapes(list):  # type: ignore[type-arg]
    """Shapes, each a list of contours, the outline first and then the holes; each contour is a list of points."""

    @property
    def __geo_interface__(self) -> dict[str, Any]:
        return {"type": "MultiPolygon", "coordinates": tuple(tuple(map(ring, shape)) for shape in self)}

    @property
    def wkb(self) -> bytes:
        """The shapes as well-known binary, a MultiPolygon, with coordinates as floats."""
        return shapes_in_bytes(self)


class Paths(list):  # type: ignore[type-arg]
    """Open paths, each a list of points."""

    @property
    def __geo_interface__(self) -> dict[str, Any]:
        return {"type": "MultiLineString", "coordinates": tuple(tuple(map(tuple, path)) for path in self)}

    @property
    def wkb(self) -> bytes:
        """The paths as well-known binary, a MultiLineString, with coordinates as floats."""
        return paths_in_bytes(self)
