"""Polygons of whole points as contours; `nonzero` fills the points that any of the polygons covers.

A polygon covers the points round which its outline winds, and none of its holes does. Where its rings are simple, and
its holes are apart and inside the outline, its outline counterclockwise and its holes clockwise wind once round just
these points. Other polygons are overlaid by themselves first."""

from __future__ import annotations

from dataclasses import dataclass
from typing import Any, Sequence

from . import calls
from .contour import Row, WholePath, box_of, double_area, in_range, is_flat, surplus_of, visits_once, without_repeats
from .flat import flat_rows
from .text import Solver
from .told import Told, counted
from .windings import wind_below_0

COLLAPSED = "# [{0} collapses to a line or a point, and is|{0}s collapse to lines or points, and are] left out"
CROSSED = counted("# [ring crosses or overlaps itself, and covers what it winds|rings cross or overlap themselves, and "
                  "cover what they wind] round")


@dataclass
class Ring:
    """A ring of a polygon as it was given, and by whole points."""

    place: object
    given: list[Any]
    whole: WholePath
    is_simple: bool = True

    def is_to_turn(self, is_outline: bool) -> bool:
        """Whether it runs against what it is: outlines run counterclockwise, and holes clockwise."""
        return bool((double_area(self.whole) > 0) != is_outline)


Polygon = list[Ring]
Contour = tuple[WholePath, "list[Any] | None"]


def contours_of_each(polygons: Sequence[Polygon], told: Told, solver: Solver) -> list[list[Contour]]:
    """The contours of each polygon by whole points, each with its points as they were given, where it is a ring that
    was. The solver splits edges that cross.

    What collapses at this scale is left out, and counted in `told`, and so are rings that cross themselves."""
    cleaned = [without_flat(rings, told) for rings in polygons]
    left = [rings for rings in cleaned if rings]
    mark_simple([ring for rings in left for ring in rings], told)
    bad = polygons_with_bad_holes(left)
    found = (contours_of_one(rings, number in bad, solver) for number, rings in enumerate(left))
    return [next(found) if rings else [] for rings in cleaned]


def contours_of_one(rings: Polygon, has_bad_holes: bool, solver: Solver) -> list[Contour]:
    """The contours of a polygon whose rings have an inside."""
    if has_bad_holes or not all(ring.is_simple for ring in rings):
        return [(contour, None) for contour in overlaid(rings, solver)]
    return [taken(ring, at == 0) for at, ring in enumerate(rings)]


def taken(ring: Ring, is_outline: bool) -> Contour:
    """A ring as a contour in its direction."""
    return (ring.whole[::-1], ring.given[::-1]) if ring.is_to_turn(is_outline) else (ring.whole, ring.given)


def without_flat(rings: Polygon, told: Told) -> Polygon:
    """The rings of a polygon that have an inside; none where its outline has none."""
    left: Polygon = []
    for at, ring in enumerate(rings):
        ring.whole = without_repeats(ring.whole)
        if not is_flat(ring.whole):
            left.append(ring)
        elif at == 0:
            told.add(counted(COLLAPSED.format("polygon")), ring.place)
            return []
        else:
            told.add(counted(COLLAPSED.format("hole")), ring.place)
    return left


# ---- simple rings


def are_resolved(contours: Sequence[WholePath]) -> bool:
    """Whether of each contour steps share points only where these are ends of both."""
    # (each has a window of its own: it is asked by itself)
    return calls.is_resolved([its for contour in contours for its in in_range([contour])[0]])


def are_resolved_rows(rows: Sequence[Row]) -> bool:
    """The same of contours in range, whose coordinates stand in rows."""
    return calls.is_resolved(flat_rows(rows))


def mark_simple(rings: Polygon, told: Told) -> None:
    """Marks the rings that are not simple: those with steps that meet, and those that visit a point twice."""
    for ring in rings:
        ring.is_simple = visits_once(ring.whole)
    groups = [rings]
    while groups:
        group = groups.pop()
        if are_resolved([ring.whole for ring in group]):
            continue
        if len(group) == 1:
            group[0].is_simple = False
            told.add(CROSSED, group[0].place)
        else:
            groups += [group[len(group) // 2 :], group[: len(group) // 2]]


# ---- holes


def polygons_with_bad_holes(polygons: Sequence[Polygon]) -> set[int]:
    """The numbers of polygons with holes that overlap, or are not inside the outline: which wind round a point less
    than 0 times."""
    asked = [at for at, rings in enumerate(polygons) if len(rings) > 1 and all(ring.is_simple for ring in rings)]
    groups = [asked] if asked else []
    found: set[int] = set()
    while groups:
        group = groups.pop()
        laid = laid_apart([polygons[at] for at in group])
        if len(group) == 1:
            found |= set(group) if wind_below_0(in_range(laid)[0]) else set()
        elif surplus_of(laid) or wind_below_0(laid):
            groups += [group[len(group) // 2 :], group[: len(group) // 2]]
    return found


def laid_apart(polygons: Sequence[Polygon]) -> list[WholePath]:
    """The contours of polygons in their directions, moved so that their boxes are apart."""
    boxes = [box_of([point for ring in rings for point in ring.whole]) for rings in polygons]
    start = -sum(right - left + 2 for left, _, right, _ in boxes) // 2 if len(boxes) > 1 else 0
    laid = []
    for rings, (left, low, right, _) in zip(polygons, boxes):
        move = (start - left, -low) if len(boxes) > 1 else (0, 0)
        for at, ring in enumerate(rings):
            contour = taken(ring, at == 0)[0]
            laid.append([(x + move[0], y + move[1]) for x, y in contour])
        start += right - left + 2
    return laid


def has_bad_holes(rows: Sequence[Row]) -> bool:
    """Whether the same is so of one polygon, whose rings stand in rows, in their directions."""
    return wind_below_0(flat_rows(rows))


# ---- polygons of any kind


def covered(ring: Ring, solver: Solver) -> list[WholePath]:
    """The contours of what a ring winds round."""
    if ring.is_simple:
        return [taken(ring, True)[0]]
    contours, window = in_range([ring.whole])
    return window.back([contour for shape in calls.overlay(contours, solver=solver) for contour in shape])


def overlaid(rings: Polygon, solver: Solver) -> list[WholePath]:
    """The contours of what the outline of a polygon covers, and none of its holes does."""
    outline = covered(rings[0], solver)
    holes = [contour for ring in rings[1:] for contour in covered(ring, solver)]
    if not holes:
        return outline
    contours, window = in_range([*outline, *holes])
    shapes = calls.overlay(contours[: len(outline)], contours[len(outline) :], "difference", solver=solver)
    return window.back([contour for shape in shapes for contour in shape])

