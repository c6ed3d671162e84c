"""Prepared shapes and arrangements of floats at a scale."""

from __future__ import annotations

from typing import Any

from . import relations
from .arrangement import Arrangement
from .prepared import Prepared, solver_of
from .regions_at_scale import RegionsAtScale, covers
from .scale import Group
from .text import AS_GIVEN, FILLS, Fill, RelationSolver, Rule, Solver, known


class PreparedAtScale(Prepared):
    """A prepared shape whose contours and points are floats, taken as whole numbers at a scale."""

    def __init__(self, scaled: RegionsAtScale, shape: Group, fill: Fill, solver: RelationSolver | None) -> None:
        fill, solver = known(FILLS, fill, "fill rule"), solver_of(solver, 4)
        # (where nothing is rounded, nonzero fills what a geometry covers without joining its polygons)
        if solver == AS_GIVEN and covers(shape):
            fill = "nonzero"
        super().__init__(scaled.region("shape", shape, fill, relations.splitting(solver)), fill, solver=solver)
        self._scaled = scaled

    def _whole(self, points: Any) -> Any:
        return self._scaled.whole_points(points)


class ArrangementAtScale(Arrangement):
    """An arrangement of floats, taken as whole numbers at a scale.

    Each answer is that of the call of `Scaled` with its name, but that no polygons of a geometry are joined for edges.
    """

    def __init__(self, scaled: RegionsAtScale, subject: Group, clip: Group, fill: Fill, solver: Solver) -> None:
        super().__init__(*scaled.both(subject, clip, fill, solver), fill, solver=solver)
        self._scaled = scaled

    def overlay(self, rule: Rule = "union", *, minimum_area: Any = 0, arrays: bool = False, **look: bool) -> Any:
        """As `Scaled.overlay`."""
        area = self._scaled.area(minimum_area)
        return self._scaled.answered(super().overlay(rule, minimum_area=area, arrays=True, **look), arrays)

    def hierarchy(self, rule: Rule = "union", *, minimum_area: Any = 0, **look: bool) -> Any:
        """As `Scaled.hierarchy`."""
        shapes, links = super().hierarchy(rule, minimum_area=self._scaled.area(minimum_area), **look)
        return self._scaled.shapes(shapes), links

    def edges(self) -> list[tuple[Any, Any, int]]:
        """Returns the edges in order: two points of floats, and the sum of the bits of the filled sides."""
        found: list[tuple[Any, Any, int]] = self._scaled.filled(super().edges())
        return found
