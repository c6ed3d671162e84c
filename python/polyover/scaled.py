"""Floats on a grid of whole numbers, with a scale that is stated."""

from __future__ import annotations

from typing import Any

from . import by_library, calls
from .arrangement import Arrangement
from .edges_at_scale import EdgesAtScale
from .held_at_scale import ArrangementAtScale, PreparedAtScale
from .overlays_at_scale import OverlaysAtScale
from .prepared import Prepared
from .regions_at_scale import covers
from .relations_at_scale import RelationsAtScale
from .scale import Group
from .text import SNAPPED, Fill, RelationSolver, Solver


class Scaled(OverlaysAtScale, RelationsAtScale, EdgesAtScale):
    """Coordinates that are floats, taken as whole numbers: each less the origin's, times the scale, and rounded.

    So a coordinate is taken at most half a unit from where it is, which is `lost` in the floats' own unit; an answer is
    given back as the floats nearest to its whole points. The calls are those of the module, and take a geometry
    (GeoJSON, or what has `__geo_interface__`) in the place of a list of contours, of paths or of points too. In each
    of them a geometry of polygons means the region that these cover, whatever the fill rule.
    """

    def clip(
        self, shape: Group, lines: Group, fill: Fill = "nonzero", *, solver: Solver = SNAPPED, **options: bool
    ) -> Any:
        """As `polyover.clip`; the polygons of a geometry are joined first, so that their edges cut no line within."""
        region, paths = self.region("shape", shape, fill, solver, True), self._taken("lines", lines)
        return self.paths(calls.clip(region, paths, fill, solver=solver, **options))

    def slice(
        self, shape: Group, lines: Group, fill: Fill = "nonzero", *, solver: Solver = SNAPPED, arrays: bool = False
    ) -> Any:
        """As `polyover.slice`; the polygons of a geometry are joined first, so that they do not cut one another."""
        region, paths = self.region("shape", shape, fill, solver, True), self._taken("lines", lines)
        return self.answered(calls.slice(region, paths, fill, solver=solver, arrays=True), arrays)

    def tiles(
        self,
        shape: Group,
        width: Any,
        height: Any,
        fill: Fill = "nonzero",
        *,
        solver: Solver = SNAPPED,
        arrays: bool = False,
    ) -> Any:
        """As `polyover.tiles`: a cell's width and height, times the scale, are rounded, and a node is at the origin.
        The polygons of a geometry are joined first, so that they do not cut one another."""
        region, sides = self.region("shape", shape, fill, solver, True), self.sides(width, height)
        return self.answered(calls.tiles(region, *sides, fill, solver=solver, arrays=True), arrays)

    def is_resolved(self, shape: Group) -> bool:
        """As `polyover.is_resolved`."""
        return calls.is_resolved(self._taken("shape", shape))

    def locate(self, shape: Group, points: Any, **options: Any) -> Any:
        """As `polyover.locate`; of a geometry in what its polygons cover, as they are taken at this scale. Where the
        library can't tell that, they are joined first."""
        if covers(shape) and by_library.can("prepare_exact"):
            return self.prepared(shape).locate(points, **options)
        region = self.region("shape", shape, "evenodd")
        return calls.locate(region, self.whole_points(points), **options)

    def prepared(self, shape: Group, fill: Fill = "nonzero", *, solver: RelationSolver | None = None) -> Prepared:
        """As `polyover.Prepared`, of the coordinates as they are taken at this scale, asked by points of floats."""
        return PreparedAtScale(self, shape, fill, solver)

    def arrangement(
        self, subject: Group, clip: Group = (), fill: Fill = "nonzero", *, solver: Solver = SNAPPED
    ) -> Arrangement:
        """As `polyover.Arrangement`, of the coordinates as they are taken at this scale; a minimum area is in squares
        of the floats' unit. For its edges the polygons of a geometry are not joined."""
        return ArrangementAtScale(self, subject, clip, fill, solver)
