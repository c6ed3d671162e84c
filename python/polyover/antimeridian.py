"""Rings of longitudes and latitudes that pass the antimeridian: coordinates are planar, so they are told, or cut there.

A step of more than 180 degrees, but less than 360, is taken as the short way round. So a ring runs on beyond 180
degrees, and is cut into the turns of 360 degrees, which are moved to one another."""

from __future__ import annotations

from dataclasses import replace
from typing import Any, Callable, Sequence

from . import calls
from .contour import WholePath, box_of
from .errors import BadInput
from .parts import POINTS, POLYGONS, Feature, Part
from .scaled import Scaled
from .systems import DEGREES
from .told import Told, counted
from .words import solver_of

HALF, TURN = 180, 360
BEYOND = "more than 180 degrees, and coordinates are planar: --antimeridian cut cuts at 180"
WIDE = {
    kind: counted(f"# [{kind} spans|{kind}s span] {BEYOND}")
    for kind in ("ring", "line")
}
# (longitudes and latitudes go no farther)
FARTHEST, POLE = 720, 90


def spans_much(path: Sequence[Any]) -> bool:
    """Whether a path of degrees spans more than 180 of them."""
    left, low, right, high = box_of(path)
    is_in_degrees = -FARTHEST <= left and right <= FARTHEST and -POLE <= low and high <= POLE
    return bool(right - left > HALF and is_in_degrees)


def tell_wide(feature: Feature, is_of_rings: bool, told: Told) -> None:
    """Counts the rings or lines of a feature that span more than 180 degrees."""
    for part in feature.parts:
        for at, path in enumerate(part.paths, 1):
            if spans_much(path):
                place = part.place._replace(ring=at) if is_of_rings else part.place
                told.add(WIDE["ring" if is_of_rings else "line"], place)


def unrolled(path: Sequence[Any]) -> tuple[list[Any], int]:
    """A path whose steps go the short way round, and by how many degrees its first point is shifted at its end, were it
    closed."""
    shift, found = 0, [tuple(path[0])]
    for (x, _), (u, v) in zip(path, [*path[1:], path[0]]):
        if HALF < abs(u - x) < TURN:
            shift += TURN if u < x else -TURN
        found.append((u + shift, v))
    return found[:-1], shift


class Cutter:
    """Cuts paths at the antimeridian, by the calls of the library, at a scale."""

    def __init__(self, scaled: Scaled, solver: Any) -> None:
        self.scaled, self.solver = scaled, solver
        if (scaled.scale * HALF).denominator > 1:
            raise BadInput("--antimeridian cut takes --digits at which 180 degrees are a whole number: from -1 on")
        self.turn = scaled.axes[0].whole(TURN)

    def strips(self, path: WholePath) -> list[tuple[list[WholePath], int]]:
        """The boxes between two turns that a path comes into, and how far each is moved to the first."""
        left, low, right, high = box_of(path)
        half = self.turn // 2
        found = []
        for number in range((left + half) // self.turn, -(-(right + half) // self.turn)):
            # (no farther than the path, so that they stay in the range)
            start = max(number * self.turn - half, left - 1)
            end = min((number + 1) * self.turn - half, right + 1)
            found.append(([[(start, low - 1), (end, low - 1), (end, high + 1), (start, high + 1)]], number * self.turn))
        return found

    def region(self, ring: Sequence[Any], place: object) -> list[WholePath]:
        """The contours of what a ring winds round, in one turn."""
        path, shift = unrolled(ring)
        if shift:
            raise BadInput(f"{place}: it winds round a pole: a step along the antimeridian is to close it there")
        whole = self.scaled.whole_path(path)
        found: list[WholePath] = []
        for box, move in self.strips(whole):
            shapes = calls.overlay([whole], box, "intersect", solver=self.solver)
            found += [[(x - move, y) for x, y in contour] for shape in shapes for contour in shape]
        return found

    def polygon(self, part: Part) -> list[Part]:
        """The polygons of a polygon that is cut."""
        regions = [self.region(ring, part.place._replace(ring=at)) for at, ring in enumerate(part.paths, 1)]
        holes = [contour for region in regions[1:] for contour in region]
        shapes = calls.overlay(regions[0], holes, "difference", solver=self.solver)
        return [Part(part.place, [[self.scaled.point(point) for point in contour] for contour in shape])
                for shape in shapes]

    def line(self, part: Part) -> list[Part]:
        """The lines of a line that is cut."""
        whole = self.scaled.whole_path(unrolled(part.paths[0])[0])
        found = []
        for box, move in self.strips(whole):
            # (along an edge of the box a line is in one of two boxes alone)
            paths = calls.clip(box, [whole], boundary=move == 0, solver=self.solver)
            found += [[self.scaled.point((x - move, y)) for x, y in path] for path in paths]
        return [Part(part.place, [path]) for path in found]

    def feature(self, feature: Feature, is_of_rings: bool) -> Feature:
        """A feature whose parts that pass the antimeridian are cut."""
        cut = self.polygon if is_of_rings else self.line
        parts: list[Part] = []
        for part in feature.parts:
            check_degrees(part)
            parts += cut(part) if passes(part, is_of_rings) else [part]
        return replace(feature, parts=parts)


def check_degrees(part: Part) -> None:
    """That the points of a part are longitudes and latitudes."""
    for path in part.paths:
        bad = next(((x, y) for x, y in path if not (abs(x) <= FARTHEST and abs(y) <= POLE)), None)
        if bad:
            raise BadInput(f"{part.place}: {bad} is no longitude and latitude, which --antimeridian cut takes")


def passes(part: Part, is_of_rings: bool) -> bool:
    """Whether a part has a step the short way round, or points beyond 180 degrees."""
    for path in part.paths:
        ends = [*path[1:], path[0]] if is_of_rings else path[1:]
        if any(abs(x) > HALF for x, _ in path) or any(HALF < abs(a[0] - b[0]) < TURN for a, b in zip(path, ends)):
            return True
    return False


def watch_over(given: Any, kinds: Sequence[str], system: str | None, told: Told) -> Callable[[Feature], Feature]:
    """What is done with each feature of a file: its parts are cut at the antimeridian where that is wanted, and else
    counted where they span more than 180 degrees, by a system that has them."""
    is_of_rings = kinds == POLYGONS
    if kinds == POINTS or not given.antimeridian and (given.quiet or system not in DEGREES):
        return lambda feature: feature
    if given.antimeridian:
        if given.fill:
            raise BadInput("--antimeridian cut does not go with --fill: it takes polygons by their outlines and holes")
        if system is not None and system not in DEGREES:
            raise BadInput(f"{told.source}: its system of coordinates is {system}; --antimeridian cut takes longitudes"
                           " and latitudes")
        cutter = Cutter(Scaled.of_digits(given.digits), solver_of(given))
        return lambda feature: cutter.feature(feature, is_of_rings)

    def watched(feature: Feature) -> Feature:
        tell_wide(feature, is_of_rings, told)
        return feature

    return watched
