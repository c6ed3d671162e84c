"""Overlays for floats at a scale."""

from __future__ import annotations

from typing import Any, Iterable

from . import calls, small
from .contour import WholePath
from .library import library
from .progress import faults_of
from .regions_at_scale import RegionsAtScale
from .rules import listed_groups
from .scale import Group
from .text import SNAPPED, Fill, Rule, Solver


class OverlaysAtScale(RegionsAtScale):
    """Calls whose answers are shapes round a region."""

    def overlay(
        self,
        subject: Group,
        clip: Group = (),
        rule: Rule = "union",
        fill: Fill = "nonzero",
        *,
        minimum_area: Any = 0,
        solver: Solver = SNAPPED,
        arrays: bool = False,
        **look: bool,
    ) -> Any:
        """As `polyover.overlay`; the minimum area is in squares of the floats' unit."""
        if type(minimum_area) is int and not (minimum_area or arrays or look) and solver == SNAPPED:
            found = small.overlay(library(), self.axes, subject, clip, rule, fill)
            if found is not None:
                return found
        both, area = self.both(subject, clip, fill, solver), self.area(minimum_area)
        shapes = calls.overlay(*both, rule, fill, minimum_area=area, solver=solver, arrays=True, **look)
        return self.answered(shapes, arrays)

    def intersection(
        self,
        subject: Group,
        clip: Group,
        fill: Fill = "nonzero",
        *,
        minimum_area: Any = 0,
        solver: Solver = SNAPPED,
        **look: bool,
    ) -> Any:
        """Returns the shapes round what both fill: `overlay` with the rule intersect."""
        return self.overlay(subject, clip, "intersect", fill, minimum_area=minimum_area, solver=solver, **look)

    def union(
        self,
        subject: Group,
        clip: Group,
        fill: Fill = "nonzero",
        *,
        minimum_area: Any = 0,
        solver: Solver = SNAPPED,
        **look: bool,
    ) -> Any:
        """Returns the shapes round what one of them fills, or both: `overlay` with the rule union."""
        return self.overlay(subject, clip, "union", fill, minimum_area=minimum_area, solver=solver, **look)

    def difference(
        self,
        subject: Group,
        clip: Group,
        fill: Fill = "nonzero",
        *,
        minimum_area: Any = 0,
        solver: Solver = SNAPPED,
        **look: bool,
    ) -> Any:
        """Returns the shapes round what the subject fills and the clip does not: `overlay` with the rule difference."""
        return self.overlay(subject, clip, "difference", fill, minimum_area=minimum_area, solver=solver, **look)

    def symmetric_difference(
        self,
        subject: Group,
        clip: Group,
        fill: Fill = "nonzero",
        *,
        minimum_area: Any = 0,
        solver: Solver = SNAPPED,
        **look: bool,
    ) -> Any:
        """Returns the shapes round what exactly one of them fills: `overlay` with the rule xor."""
        return self.overlay(subject, clip, "xor", fill, minimum_area=minimum_area, solver=solver, **look)

    def union_all(
        self,
        groups: Iterable[Group],
        fill: Fill = "nonzero",
        *,
        minimum_area: Any = 0,
        solver: Solver = SNAPPED,
        **look: bool,
    ) -> Any:
        """As `polyover.union_all`: groups are lists of contours, or geometries, which fill what they cover."""
        contours: list[WholePath] = []
        for number, each in enumerate(listed_groups(groups), 1):
            with faults_of(f"group {number}"):
                region = self.region("subject", each, fill, solver)
                shapes = calls.overlay(region, (), "subject", fill, solver=solver)
            contours += [contour for shape in shapes for contour in shape]
        options: dict[str, Any] = {"minimum_area": self.area(minimum_area), "solver": solver, **look}
        return self.shapes(calls.overlay(contours, (), "subject", "nonzero", **options))

    def hierarchy(
        self,
        subject: Group,
        clip: Group = (),
        rule: Rule = "union",
        fill: Fill = "nonzero",
        *,
        minimum_area: Any = 0,
        solver: Solver = SNAPPED,
        **look: bool,
    ) -> Any:
        """As `polyover.hierarchy`; the minimum area is in squares of the floats' unit."""
        both, area = self.both(subject, clip, fill, solver), self.area(minimum_area)
        shapes, links = calls.hierarchy(*both, rule, fill, minimum_area=area, solver=solver, **look)
        return self.shapes(shapes), links

    def simplify(
        self,
        subject: Group,
        fill: Fill = "nonzero",
        *,
        minimum_area: Any = 0,
        solver: Solver = SNAPPED,
        arrays: bool = False,
        **look: bool,
    ) -> Any:
        """As `polyover.simplify`; the minimum area is in squares of the floats' unit."""
        region, area = self.region("subject", subject, fill, solver), self.area(minimum_area)
        shapes = calls.simplify(region, fill, minimum_area=area, solver=solver, arrays=True, **look)
        return self.answered(shapes, arrays)
