"""Relations for floats at a scale: all, and one by one."""

from __future__ import annotations

from typing import Any

from . import piecewise, quick, relations, small
from .contour import Row
from .library import library
from .reading import Polygons
from .regions_at_scale import RegionsAtScale, covers, taken
from .scale import Group
from .text import AS_GIVEN, FILLS, RELATION_BITS, Fill, RelationSolver, known

COLLECTIONS = ("FeatureCollection", "GeometryCollection")
# (how many polygons of a geometry are asked together, for their relations)
MANY = 16


class RelationsAtScale(RegionsAtScale):
    """Calls that tell which relations hold, of the coordinates as they are taken."""

    def relate(
        self, subject: Group, clip: Group, fill: Fill = "nonzero", *, solver: RelationSolver | None = None
    ) -> dict[str, bool]:
        """As `polyover.relate`, of the coordinates as they are taken at this scale."""
        if solver is None or solver == AS_GIVEN:
            found = small.relations(library(), self.axes, subject, clip, fill)
            if found is not None:
                return {name: bool(found & bit) for name, bit in RELATION_BITS.items()}
            layers = self._layers(subject, clip, fill, solver)
            if layers:
                return piecewise.relations(*layers, relations.bits_of_rows)
        return relations.relate(*self._related(subject, clip, fill, solver), solver=solver)

    def intersects(
        self, subject: Group, clip: Group, fill: Fill = "nonzero", *, solver: RelationSolver | None = None
    ) -> bool:
        """Returns whether some point is in both closed regions."""
        return self._relate_one("intersects", subject, clip, fill, solver)

    def interiors_intersect(
        self, subject: Group, clip: Group, fill: Fill = "nonzero", *, solver: RelationSolver | None = None
    ) -> bool:
        """Returns whether some point off the edges is filled by both."""
        return self._relate_one("interiors_intersect", subject, clip, fill, solver)

    def touches(
        self, subject: Group, clip: Group, fill: Fill = "nonzero", *, solver: RelationSolver | None = None
    ) -> bool:
        """Returns whether they intersect, and no point off the edges is filled by both."""
        return self._relate_one("touches", subject, clip, fill, solver)

    def point_intersects(
        self, subject: Group, clip: Group, fill: Fill = "nonzero", *, solver: RelationSolver | None = None
    ) -> bool:
        """Returns whether they meet in single points alone."""
        return self._relate_one("point_intersects", subject, clip, fill, solver)

    def within(
        self, subject: Group, clip: Group, fill: Fill = "nonzero", *, solver: RelationSolver | None = None
    ) -> bool:
        """Returns whether the subject fills some point off the edges, and the clip fills each such point."""
        return self._relate_one("within", subject, clip, fill, solver)

    def disjoint(
        self, subject: Group, clip: Group, fill: Fill = "nonzero", *, solver: RelationSolver | None = None
    ) -> bool:
        """Returns whether they do not intersect."""
        return self._relate_one("disjoint", subject, clip, fill, solver)

    def covers(
        self, subject: Group, clip: Group, fill: Fill = "nonzero", *, solver: RelationSolver | None = None
    ) -> bool:
        """Returns whether the clip lies within the subject."""
        return self._relate_one("covers", subject, clip, fill, solver)

    def _relate_one(
        self, relation: str, subject: Group, clip: Group, fill: Fill, solver: RelationSolver | None
    ) -> bool:
        if solver is None or solver == AS_GIVEN:
            found = small.relations(library(), self.axes, subject, clip, fill, RELATION_BITS[relation])
            if found is not None:
                return bool(found)
            layers = self._layers(subject, clip, fill, solver)
            if layers:
                return piecewise.has_relation(relation, *layers, relations.holds_of_rows, relations.bits_of_rows)
        return relations.relate_one(relation, *self._related(subject, clip, fill, solver), solver=solver)

    def _layers(
        self, subject: Group, clip: Group, fill: Fill, solver: RelationSolver | None
    ) -> tuple[list[list[Row]], list[list[Row]]] | None:
        """The contours of the polygons of two groups, if these are geometries whose relations are told as they are
        given, and one is of many features."""
        if not (are_many(subject) or are_many(clip)) or not (covers(subject) and covers(clip)):
            return None
        if not known(FILLS, fill, "fill rule") or not relations.is_exact(solver):
            return None
        return taken("subject", subject).rows_of_each(self), taken("clip", clip).rows_of_each(self)

    def _related(
        self, subject: Group, clip: Group, fill: Fill, solver: RelationSolver | None
    ) -> tuple[Any, Any, Fill]:
        """The contours of two groups, and the fill rule under which their relations are told. Where nothing is rounded,
        and both are geometries, that is nonzero: it fills what these cover without joining their polygons."""
        fill = known(FILLS, fill, "fill rule")
        if relations.is_exact(solver) and covers(subject) and covers(clip):
            fill = "nonzero"
        return *self.both(subject, clip, fill, relations.splitting(solver)), fill


def are_many(group: Group) -> bool:
    """Whether what was given is the polygons of a file, a collection, or a geometry of many polygons."""
    if isinstance(group, dict):
        parts = group.get("coordinates")
        return group.get("type") in COLLECTIONS or isinstance(parts, (list, tuple)) and len(parts) > MANY
    if isinstance(group, Polygons):
        return True
    kind: Any = type(group)
    return quick.is_of_shapely(kind) and len(getattr(group, "geoms", ())) > MANY
