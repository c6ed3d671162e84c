"""Features of a file of GeoJSON, many at a time: whether their points are plain is told of all of them at once. Those
that are not plain are read one by one, which names their places."""

from __future__ import annotations

from itertools import accumulate, chain, islice
from typing import Any, Callable, Iterable, Iterator, Sequence

from .contour import points_in
from .flat import parted
from .parts import LINES, POINTS, POLYGONS, Feature, Part, Place, PlainLine, PlainPolygon
from .plain import LISTS, plain_numbers
from .reader import Reader

# (of more the points leave the processor's cache)
AT_ONCE = 200
PROPERTIES = {dict, type(None)}
# (how many numbers a line of two points has, and a ring of three)
LINE, RING = 4, 6
# the numbers of some points, in a row
Row = list[Any]


def features(reader: Reader, things: Iterable[tuple[int, Any]]) -> Iterator[Feature]:
    """The features of things that are all there, each with its line, or 0, as the reader has them one by one."""
    kind, left, count = reader.kinds[0], iter(things), 0
    numbers_of, part_of = KINDS[kind]
    while group := list(islice(left, AT_ONCE)):
        given = [coordinates_in(thing, kind) for _, thing in group]
        plain = numbers_of([each for each in given if each is not None])
        found = iter(plain or ())
        for number, ((line, thing), coordinates) in enumerate(zip(group, given), count + 1):
            place = Place(number, (), "", 0, line)
            if plain is None or coordinates is None:
                yield reader.feature(place, thing)
                continue
            reader.finds_any = True
            members = thing.copy()
            del members["type"], members["geometry"]
            members.setdefault("properties", None)
            yield Feature(place, [part_of(number, line, next(found))], members)
        count += len(group)
    reader.check_kinds()


def coordinates_in(thing: Any, kind: str) -> Any:
    """The coordinates of a feature of a kind, where they are a list with items, and its geometry has nothing more; None
    of other things."""
    if type(thing) is not dict or thing.get("type") != "Feature" or type(thing.get("properties")) not in PROPERTIES:
        return None
    geometry = thing.get("geometry")
    if type(geometry) is not dict or geometry.get("type") != kind or len(geometry) > 2:
        return None
    coordinates = geometry.get("coordinates")
    return coordinates if type(coordinates) in LISTS and coordinates else None


# ---- points, lines and polygons


def points_of(points: Sequence[Any]) -> list[Any] | None:
    """Points, if all are plain."""
    numbers = plain_numbers(points)
    return None if numbers is None else points_in(numbers)


def rows_of(paths: Sequence[Any], least: int) -> list[Row] | None:
    """The coordinates of paths in rows, if their points are plain, and each has as many numbers."""
    if not set(map(type, paths)) <= LISTS:
        return None
    numbers = plain_numbers(list(chain.from_iterable(paths)))
    if numbers is None:
        return None
    counts = [2 * count for count in map(len, paths)]
    return parted(numbers, list(accumulate(counts))) if min(counts) >= least else None


def lines_of(lines: Sequence[Any]) -> list[Row] | None:
    """The coordinates of lines in rows, if their points are plain, and two at least."""
    return rows_of(lines, LINE)


def polygons_of(polygons: Sequence[Any]) -> list[list[Row]] | None:
    """The coordinates of the rings of polygons in rows, if their points are plain. The first point does not come again
    at the end, and three are left at least."""
    rows = rows_of(list(chain.from_iterable(polygons)), RING)
    if rows is None:
        return None
    for row in rows:
        if row[0] == row[-2] and row[1] == row[-1]:
            del row[-2:]
            if len(row) < RING:
                return None
    return parted(rows, list(accumulate(map(len, polygons))))


def point(number: int, line: int, found: Any) -> Part:
    """A point of a feature."""
    return Part(Place(number, (), "point 1", 0, line), [[found]])


def plain_line(number: int, line: int, row: Row) -> Part:
    """A line of a feature."""
    return PlainLine(Place(number, (), "line 1", 0, line), row)


def polygon(number: int, line: int, rows: list[Row]) -> Part:
    """A polygon of a feature."""
    return PlainPolygon(Place(number, (), "polygon 1", 0, line), rows)


# of each kind what all of some features have, if they are plain, and what each is made of it
KINDS: dict[str, tuple[Callable[[Sequence[Any]], list[Any] | None], Callable[[int, int, Any], Part]]]
KINDS = {POINTS[0]: (points_of, point), LINES[0]: (lines_of, plain_line), POLYGONS[0]: (polygons_of, polygon)}
