"""What the words of a command ask of its files."""

from __future__ import annotations

from itertools import islice
from typing import Any, Iterator, Sequence

from .content import File
from .contour import Row
from .parts import Feature
from .progress import faults_of
from .reading import Polygons
from .relations import splitting
from .scaled import Scaled
from .text import Fill, Solver

# (features that are asked together: of more the numbers leave the processor's cache)
AT_ONCE = 100


def fill_of(given: Any) -> Fill:
    """The fill rule: nonzero of contours in their directions, or the one that is named, of rings as they run."""
    return given.fill or "nonzero"


def solver_of(given: Any) -> Solver:
    """The solver that splits edges: the one that is named, if it is one. (Of relations it need not be.)"""
    return splitting(getattr(given, "solver", None))


def look_of(given: Any, scaled: Scaled) -> dict[str, Any]:
    """The smallest area that is kept, as a number of squares at the scale, and how edges are split."""
    return {"minimum_area": scaled.area(given.min_area), "solver": given.solver}


def polygons_of(given: Any, file: File, parts: Sequence[Any] | None = None) -> Polygons:
    """The polygons of a file, or some of them, by GeoJSON's reading or as rings that run as they are. What is to be
    said of some is counted with the file."""
    is_raw, solver = given.fill is not None, solver_of(given)
    if parts is None:
        parts = [part for each in file.features for part in each.parts]
        return Polygons(parts, file.name, is_raw, solver=solver)
    return Polygons(list(parts), file.name, is_raw, file.told, solver)


def groups_of(file: File) -> Iterator[list[Feature]]:
    """The features of a file, many at a time, or one by one where they come as they are read."""
    features = iter(file.features)
    while group := list(islice(features, AT_ONCE if file.count else 1)):
        yield group


def rows_of(given: Any, scaled: Scaled, file: File, group: Sequence[Feature]) -> list[list[Row]]:
    """The contours of each feature of a group, by whole coordinates in rows."""
    with faults_of(file.name):
        polygons = polygons_of(given, file, [part for each in group for part in each.parts])
        found = iter(polygons.rows_of_each(scaled))
        parts = [list(islice(found, len(each.parts))) for each in group]
    return [[row for rows in its for row in rows] for its in parts]


def paths_of(file: File) -> list[Any]:
    """The paths of a file whose features are all there."""
    return [path for each in file.features for path in each.paths]


def rings_of(file: File) -> int:
    """How many rings a file has."""
    return sum(part.count for each in file.features for part in each.parts)
