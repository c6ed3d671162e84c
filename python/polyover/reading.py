"""Contours and open paths of geometries, at a scale or as they are."""

from __future__ import annotations

from dataclasses import dataclass, replace
from itertools import accumulate, chain, islice
from typing import Any, Callable, Iterable, Sequence

from .calls import is_resolved
from .columns import row_of_numbers, whole_columns
from .contour import Row, WholePath, directed_rings, extent_of, points_in, row_of
from .errors import BadInput
from .flat import parted
from .geojson import parts_of
from .numbers import over_one_bottom
from .parts import LINES, POLYGONS, Part, PlainLine, PlainPolygon
from .polygons import Contour, Ring, are_resolved_rows, contours_of_each, has_bad_holes
from .text import LIMIT, SNAPPED, Solver
from .told import Told, counted
from .turning import directed_all

COLLAPSED = counted("# [line collapses to a point, and is|lines collapse to points, and are] left out")
Whole = Callable[[Sequence[Any]], WholePath]


@dataclass
class Polygons:
    """Polygons that were read; their contours are told at a scale. `source` names their file, `solver` how edges of
    those that cross themselves are split.

    If they are raw, each ring is a contour that runs as it is, for any fill rule. `told` counts what is to be said
    where others have a part in it; else it is said at once."""

    parts: list[Part]
    source: str = ""
    is_raw: bool = False
    told: Told | None = None
    solver: Solver = SNAPPED

    def contours(self, whole: Whole, has_range: bool = True) -> list[Contour]:
        """Their contours for the fill rule nonzero, by whole points and as they were given. Where there is a range a
        point that is out of it is a fault, which names its place."""
        return [contour for contours in self.contours_of_each(whole, has_range) for contour in contours]

    def contours_of_each(self, whole: Whole, has_range: bool = True) -> list[list[Contour]]:
        """The same, polygon by polygon."""
        points = iter(whole([point for part in self.parts for path in part.paths for point in path]))
        polygons = [
            [
                Ring(part.place._replace(ring=at), path, list(islice(points, len(path))))
                for at, path in enumerate(part.paths, 1)
            ]
            for part in self.parts
        ]
        if has_range:
            check_range(self.source, [(ring.place, ring.whole) for rings in polygons for ring in rings])
        if self.is_raw:
            return [[(ring.whole, ring.given) for ring in rings] for rings in polygons]
        told = Told(self.source) if self.told is None else self.told
        contours = contours_of_each(polygons, told, self.solver)
        if self.told is None:
            told.say()
        return contours


    def rows_of_each(self, scaled: Any) -> list[list[Row]]:
        """The coordinates of the contours of each polygon in rows, at a scale."""
        found = None if self.is_raw else self.plain_rows(scaled)
        if found is None:
            each = self.contours_of_each(scaled.whole_path)
            found = [[row_of(whole) for whole, _ in contours] for contours in each]
        return found

    def plain_rows(self, scaled: Any) -> list[list[Row]] | None:
        """The same of polygons of plain rings, where those that are not simple, or have holes that overlap or lie
        outside, are read by themselves; none where plain rings cross themselves, or are out of range."""
        if not set(map(type, self.parts)) <= {PlainPolygon}:
            return None
        polygons = [part.rows for part in self.parts]  # type: ignore[attr-defined]
        found = directed_polygons(scaled.axes, polygons)
        if found is None:
            return None
        found = [[] if len(its) > 1 and has_bad_holes(its) else its for its in found]
        others = replace(self, parts=[part for part, its in zip(self.parts, found) if not its])
        rest = iter(others.contours_of_each(scaled.whole_path) if others.parts else ())
        return [its or [row_of(whole) for whole, _ in next(rest)] for its in found]


def directed_polygons(axes: Sequence[Any], polygons: Sequence[list[Row]]) -> list[list[Row]] | None:
    """The rings of polygons by whole coordinates, in their directions. There is nothing of a polygon with a ring that
    visits a point twice, or has no area, and None of all where rings cross themselves, or are out of range."""
    rows = list(chain.from_iterable(polygons))
    numbers, counts, sizes = list(chain.from_iterable(rows)), list(map(len, rows)), list(map(len, polygons))
    columns = whole_columns(axes, numbers)
    directed = None if columns is None else directed_all(columns, [count // 2 for count in counts], sizes)
    if directed is not None:
        flat, is_kept = directed
        if not is_resolved(flat):
            return None
        taken = iter(parted(flat.numbers.tolist(), [2 * end for end in flat.counts.tolist()]))
        return [list(islice(taken, size)) if kept else [] for kept, size in zip(is_kept, sizes)]
    whole = row_of_numbers(axes, numbers)
    if whole is None or whole and max(max(whole), -min(whole)) > LIMIT:
        return None
    wholes = iter(parted(whole, list(accumulate(counts))))
    found = [directed_rings(list(islice(wholes, size))) for size in sizes]
    return found if are_resolved_rows([row for its in found for row in its]) else None


@dataclass
class Lines:
    """Lines that were read; `source` names their file. `told` counts what is to be said where others have a part in it;
    else it is said at once."""

    parts: list[Part]
    source: str = ""
    told: Told | None = None

    @property
    def paths(self) -> list[list[Any]]:
        """Their points."""
        return [part.paths[0] for part in self.parts]

    def whole_numbers(self, scaled: Any) -> tuple[Row, list[int]]:
        """Their whole coordinates in one row, and how many each has."""
        if all(type(part) is PlainLine for part in self.parts):
            given = [part.row for part in self.parts]  # type: ignore[attr-defined]
            found = row_of_numbers(scaled.axes, list(chain.from_iterable(given)))
            if found is not None:
                return found, list(map(len, given))
        paths = self.paths
        return scaled.whole_row(list(chain.from_iterable(paths))), [2 * len(path) for path in paths]

    def rows(self, scaled: Any) -> list[Row]:
        """Their whole coordinates, in rows; says how many of them are points at a scale."""
        found, counts = self.whole_numbers(scaled)
        rows = parted(found, list(accumulate(counts)))
        if found and max(max(found), -min(found)) > LIMIT:
            check_range(self.source, [(part.place, points_in(row)) for part, row in zip(self.parts, rows)])
        told = Told(self.source) if self.told is None else self.told
        for part, row in zip(self.parts, rows):
            if row[:2] == row[-2:] and len(set(points_in(row))) < 2:
                told.add(COLLAPSED, part.place)
        if self.told is None:
            told.say()
        return rows


def check_range(source: str, paths: Iterable[tuple[object, WholePath]]) -> None:
    """That points are in the range; the first that is not is named by its place."""
    listed = list(paths)
    if extent_of([path for _, path in listed]) <= LIMIT:
        return
    for place, path in listed:
        if extent_of([path]) > LIMIT:
            at, point = next((at, each) for at, each in enumerate(path, 1) if extent_of([[each]]) > LIMIT)
            start = f"{source}: {place}" if source else str(place)
            raise BadInput(f"{start}, point {at}: {point} at this scale is out of range: at most {LIMIT} from 0")


def polygons_in(thing: object, *, skip_invalid: bool = False, solver: Solver = SNAPPED) -> Polygons:
    """The polygons of a geometry."""
    return Polygons(parts_of(thing, POLYGONS, skip_invalid), solver=solver)


def lines_in(thing: object, *, skip_invalid: bool = False) -> Lines:
    """The lines of a geometry."""
    return Lines(parts_of(thing, LINES, skip_invalid))


def contours_of(thing: object, *, skip_invalid: bool = False) -> list[list[Any]]:
    """The contours of all polygons of a geometry, for the fill rule nonzero: with it they fill what any polygon covers.

    The points are those given, in one direction or the other; those of polygons that cross themselves, or whose holes
    overlap or lie outside, are computed. (Whether they do is told exactly, but digits below 2^-61 of the width or
    height of a polygon are rounded for it.) Raises BadInput, which names the place, where it is no geometry of
    polygons; with `skip_invalid` rings of less than three points are left out, with a warning. What has no area is left
    out with a warning too. `Scaled.contours_of` does so at its scale."""
    polygons = polygons_in(thing, skip_invalid=skip_invalid)
    values, bottom = over_one_bottom(value for part in polygons.parts for it in part.paths for p in it for value in p)
    numbers = iter(values)
    contours = polygons.contours(lambda path: [(next(numbers), next(numbers)) for _ in path], has_range=False)
    return [number_points(whole, bottom) if given is None else given for whole, given in contours]


def number_points(whole: WholePath, bottom: int) -> list[Any]:
    """The points of whole ones over a bottom: floats, where that is not 1."""
    return [(x, y) if bottom == 1 else (x / bottom, y / bottom) for x, y in whole]


def lines_of(thing: object, *, skip_invalid: bool = False) -> list[list[Any]]:
    """The open paths of all lines of a geometry.

    Raises BadInput, which names the place, where it is no geometry of lines; with `skip_invalid` lines of less than two
    points are left out, with a warning."""
    return lines_in(thing, skip_invalid=skip_invalid).paths
