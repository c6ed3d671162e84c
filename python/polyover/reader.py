"""Reads features of GeoJSON: the polygons, the lines or the points of each."""

from __future__ import annotations

from typing import Any, Iterable, Iterator, Sequence

from .checks import check_nested, checked_point, interface_of, kind_of, listed, member, shown
from .errors import BadInput
from .members import tell_left_out
from .parts import DEPTHS, KINDS, LINES, NESTED, POLYGONS, Feature, Part, Path, Place, PlainLine, PlainPolygon
from .plain import plain_numbers, plain_points, plain_rings
from .told import Told, counted

DROPPED = counted("members of # [point|points] beyond x and y are left out")
PASSED_OVER = "# [geometry that is|geometries that are] no {} [is|are] passed over"
SKIPPED = counted("# [ring or line|rings or lines] with too few points [is|are] skipped")
HOLES = counted("# [hole of an outline that is skipped is|holes of outlines that are skipped are] skipped too")


class Reader:
    """Reads polygons, lines or points; counts what it passes over, and, where that is wanted, what geometries have
    beside coordinates."""

    def __init__(self, kinds: Sequence[str], skip_invalid: bool, told: Told, tells_members: bool = False) -> None:
        self.kinds, self.skip_invalid, self.told, self.tells_members = kinds, skip_invalid, told, tells_members
        self.wanted = " or ".join(kinds)
        self.passed_over = ""
        self.finds_any = False
        self.readers = {"Polygon": ("polygon", self.polygon), "LineString": ("line", self.line)}
        self.readers["Point"] = ("point", self.point)

    def points(self, place: Place, path: object, least: int) -> Path | None:
        """The points of a ring or line, with x and y alone; none where too few of them are to be skipped."""
        plain = plain_points(path)
        points = self.checked(place, path) if plain is None else plain
        if least == 3 and len(points) > 1 and tuple(points[0]) == tuple(points[-1]):
            points.pop()
        if len(points) < least:
            if not self.skip_invalid:
                what = "a ring takes at least three" if least == 3 else "a line takes at least two"
                raise BadInput(f"{place}: {len(points)} points: {what}")
            self.told.add(SKIPPED, place)
            return None
        if plain is not None:
            return plain
        more = sum(len(point) > 2 for point in points)
        if more:
            self.told.add(DROPPED, place, more)
        return [tuple(point[:2]) for point in points]

    def checked(self, place: Place, path: object) -> list[Any]:
        """The points of a ring or line, each with what it has beyond x and y."""
        return [checked_point(place, number, point) for number, point in enumerate(listed(place, path), 1)]

    def polygon(self, place: Place, rings: object) -> Iterator[Part]:
        """A polygon, if its outline is one."""
        paths = [self.points(place._replace(ring=at), each, 3) for at, each in enumerate(listed(place, rings), 1)]
        if paths and paths[0] is None:
            holes = sum(path is not None for path in paths)
            if holes:
                self.told.add(HOLES, place, holes)
        elif paths:
            yield Part(place, [path for path in paths if path is not None])

    def line(self, place: Place, points: object) -> Iterator[Part]:
        """A line, if it is one."""
        path = self.points(place, points, 2)
        if path is not None:
            yield Part(place, [path])

    def point(self, place: Place, point: object) -> Iterator[Part]:
        """A point, as a line of one."""
        yield Part(place, [[tuple(checked_point(place, 1, point))]])

    def parts(self, place: Place, thing: object) -> Iterator[Part]:
        """The polygons, the lines or the points of a geometry."""
        geometry = interface_of(thing)
        kind = kind_of(place, geometry)
        is_taken = kind in self.kinds or kind == "GeometryCollection"
        if self.tells_members and is_taken and len(geometry) > 2:
            tell_left_out(self.told, place, geometry)
        if kind == "GeometryCollection":
            if len(place.geometries) >= NESTED:
                raise BadInput(f"{place._replace(geometries=())}: more than {NESTED} collections in one another")
            for number, each in enumerate(listed(place, member(place, geometry, "geometries"), "geometries"), 1):
                yield from self.parts(place._replace(geometries=(*place.geometries, number)), each)
            return
        if kind not in KINDS:
            raise BadInput(f"{place}: {shown(kind)} in the place of {self.wanted}")
        coordinates = member(place, geometry, "coordinates")
        if kind not in self.kinds:
            check_nested(place, coordinates, DEPTHS[kind])
            self.passed_over = self.passed_over or f"{place}: {kind} in the place of {self.wanted}"
            self.told.add(counted(PASSED_OVER.format(self.wanted)), place)
            return
        self.finds_any = True
        name, read = self.readers[self.kinds[0]]
        items = listed(place, coordinates, "coordinates")
        if kind.startswith("Multi"):
            for number, each in enumerate(items, 1):
                yield from read(place._replace(part=f"{name} {number}"), each)
        elif len(items):
            yield from read(Place(place.feature, place.geometries, f"{name} 1", 0, place.line), items)

    def features(self, things: Iterable[tuple[int, object]]) -> Iterator[Feature]:
        """Features as they come, each from its line, or from line 0 where it has none; at their end a fault where no
        geometry was of the wanted kinds, but some were of others."""
        for number, (line, thing) in enumerate(things, 1):
            yield self.feature(Place(number, line=line), thing)
        self.check_kinds()

    def check_kinds(self) -> None:
        """That a geometry was of the wanted kinds, where some were of others."""
        if self.passed_over and not self.finds_any:
            raise BadInput(self.passed_over)

    def feature(self, place: Place, thing: object) -> Feature:
        """A feature, or a geometry that stands alone."""
        found = interface_of(thing)
        if not isinstance(found, dict):
            raise BadInput(f"{place}: {shown(found)} is no feature")
        if found.get("type") != "Feature":
            return Feature(place, list(self.parts(place, found)))
        geometry = member(place, found, "geometry")
        members = {name: value for name, value in found.items() if name not in ("type", "geometry")}
        if not isinstance(members.setdefault("properties", None), (dict, type(None))):
            raise BadInput(f"{place}: properties: {shown(members['properties'])} is no object")
        if geometry is None:
            return Feature(place, [], members, is_null=True)
        part = self.plain_part(place, geometry)
        return Feature(place, list(self.parts(place, geometry)) if part is None else [part], members)

    def plain_part(self, place: Place, geometry: object) -> Part | None:
        """The line or polygon of a geometry that is one, of points of two numbers of Python's own, where it is wanted
        no path has too few points, and no member is to be told of."""
        if type(geometry) is not dict or geometry.get("type") != self.kinds[0]:
            return None
        if self.tells_members and len(geometry) > 2:
            return None
        kind, coordinates = self.kinds[0], geometry.get("coordinates")
        found: Any = None
        if kind == LINES[0]:
            row = plain_numbers(coordinates)
            found = row and len(row) > 2 and PlainLine(Place(place.feature, (), "line 1", 0, place.line), row)
        elif kind == POLYGONS[0]:
            rows = plain_rings(coordinates)
            found = rows and PlainPolygon(Place(place.feature, (), "polygon 1", 0, place.line), rows)
        if not found:
            return None
        self.finds_any = True
        return found  # type: ignore[no-any-return]
