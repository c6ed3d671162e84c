"""Edges, also with the steps on which they lie, and shapes with filled sides, for floats at a scale."""

from __future__ import annotations

from typing import Any

from . import calls, traced, vectors
from .errors import BadInput
from .regions_at_scale import RegionsAtScale, is_of_geometry
from .scale import Group
from .text import SNAPPED, Fill, Rule, Solver


class EdgesAtScale(RegionsAtScale):
    """Calls whose answers are edges."""

    def edges(self, subject: Group, clip: Group = (), fill: Fill = "nonzero", *, solver: Solver = SNAPPED) -> Any:
        """As `polyover.edges`; the polygons of a geometry are joined first."""
        return self.filled(calls.edges(*self.both(subject, clip, fill, solver, True), fill, solver=solver))

    def trace(
        self,
        subject: Group,
        clip: Group = (),
        rule: Rule | None = None,
        fill: Fill = "nonzero",
        *,
        closed: bool = True,
        solver: Solver = SNAPPED,
    ) -> list[Any]:
        """As `polyover.trace`, of lists of contours or of paths: a geometry has no steps of its own."""
        both = self._steps("subject", subject), self._steps("clip", clip)
        return [self._placed(edge) for edge in traced.trace(*both, rule, fill, closed=closed, solver=solver)]

    def vectors(
        self,
        subject: Group,
        clip: Group = (),
        rule: Rule = "union",
        fill: Fill = "nonzero",
        *,
        minimum_area: Any = 0,
        solver: Solver = SNAPPED,
        **look: bool,
    ) -> list[Any]:
        """As `polyover.vectors`; the minimum area is in squares of the floats' unit."""
        both, area = self.both(subject, clip, fill, solver), self.area(minimum_area)
        shapes = vectors.vectors(*both, rule, fill, minimum_area=area, solver=solver, **look)
        return [[[self._placed(step) for step in contour] for contour in shape] for shape in shapes]

    def _steps(self, name: str, group: Group) -> Any:
        """A group with whole points, whose steps are those that are given."""
        if is_of_geometry(group):
            raise BadInput(f"{name}: a geometry in the place of a list of contours: a trace names steps of lists")
        return self._taken(name, group)

    def _placed(self, edge: Any) -> Any:
        """An edge with points of floats."""
        return edge._replace(a=self.point(edge.a), b=self.point(edge.b))
