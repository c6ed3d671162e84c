"""The contours, the lines and the points that are given to calls, with whole points at a scale."""

from __future__ import annotations

from typing import Any

from . import calls, quick
from .contour import Row, WholePath, WholePoint
from .errors import BadInput
from .flat import Flat, FlatFloats, flat_rows, parted
from .geojson import is_geometry, points_of
from .reading import Lines, Polygons, lines_in, polygons_in
from .scale import Group, Scale
from .shapes import Paths
from .text import SNAPPED, Fill, Solver
from .told import Told


class RegionsAtScale(Scale):
    """What is given for a group of contours, of paths or of points, with whole points."""

    def contours_of(self, thing: object, *, skip_invalid: bool = False) -> list[list[Any]]:
        """The contours of all polygons of a geometry, for the fill rule nonzero at this scale, with points of floats.

        As `polyover.contours_of`, but that directions, and what collapses, are told of the whole numbers."""
        contours = polygons_in(thing, skip_invalid=skip_invalid).contours(self.whole_path)
        return [[self.point(each) for each in whole] if given is None else given for whole, given in contours]

    def _taken(self, name: str, group: Group) -> list[WholePath]:
        """What was given for a group of paths, with whole points."""
        return self.whole(taken(name, group), name)

    def region(
        self, name: str, given: Group, fill: Fill, solver: Solver = SNAPPED, is_joined: bool = False
    ) -> list[WholePath] | Flat:
        """The contours of a group, with whole points; of polygons contours that fill with the fill rule what these
        cover. Polygons are joined where it does not join them, or where a call asks for that."""
        if fill != "negative":
            plain = quick.region(given, self.axes, is_joined or fill == "evenodd")
            if plain is not None:
                return plain
        group = taken(name, given, solver)
        contours = self.whole(group, name)
        if not isinstance(group, Polygons) or group.is_raw:
            return contours
        if len(group.parts) > 1 and (is_joined or fill == "evenodd"):
            joined = calls.overlay(contours, (), "subject", solver=solver)
            contours = [contour for shape in joined for contour in shape]
        return [contour[::-1] for contour in contours] if fill == "negative" else contours

    def whole_rows(self, polygons: Polygons) -> list[Row]:
        """The contours of polygons that were read, by whole coordinates in rows."""
        return [row for rows in polygons.rows_of_each(self) for row in rows]

    def joined_rows(self, polygons: Polygons, fill: Fill, solver: Solver) -> list[Row]:
        """The same of what polygons cover, joined where they are several; raw rings as they are."""
        rows = self.whole_rows(polygons)
        if polygons.is_raw or len(polygons.parts) < 2:
            return rows
        flat = calls.overlay(flat_rows(rows), (), "subject", solver=solver, arrays=True).contours
        return parted(flat.numbers.tolist(), [2 * end for end in flat.counts.tolist()])

    def both(
        self, subject: Group, clip: Group, fill: Fill, solver: Solver, is_joined: bool = False
    ) -> tuple[Any, Any]:
        """The contours of two groups."""
        how = fill, solver, is_joined
        return self.region("subject", subject, *how), self.region("clip", clip, *how)

    def whole_points(self, points: Any) -> WholePath:
        """Points that are located, with whole coordinates; those of a geometry too."""
        return self._taken("points", [points_of(points) if is_geometry(points) else points])[0]

    def sides(self, width: Any, height: Any) -> WholePoint:
        """The whole width and height of a cell."""
        try:
            found = Scale(self.scale).whole_point((width, height))
        except BadInput:
            raise BadInput(f"cells of {width!r} by {height!r}: no two finite numbers") from None
        if min(found) < 1:
            raise BadInput(f"cells of {width} by {height} do not fit: at least a unit of the scale wide and high")
        return found


def is_of_geometry(group: Group) -> bool:
    """Whether what was given for paths is a geometry, and no answer of a call."""
    return is_geometry(group) and not isinstance(group, (Paths, Flat))


def covers(group: Group) -> bool:
    """Whether what was given for contours means what polygons cover, whatever the fill rule."""
    return not group.is_raw if isinstance(group, Polygons) else is_of_geometry(group)


def taken(name: str, group: Group, solver: Solver = SNAPPED) -> Group:
    """What was given for a group of paths: polygons or lines that are read, or lists of points of two numbers. The
    solver splits edges of a polygon that crosses itself."""
    if isinstance(group, (Polygons, Lines, FlatFloats)):
        return group
    if is_of_geometry(group):
        return lines_in(group) if name == "lines" else polygons_in(group, solver=solver)
    told = Told()
    paths = calls.listed(name, group, told)
    told.say()
    return paths
