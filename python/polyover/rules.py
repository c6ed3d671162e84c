"""The rules of `overlay` and the relations of `relate`, one by one, under the names of other libraries. Options and
faults are those of the two."""

from __future__ import annotations

from typing import Any, Iterable

from .calls import check_unused, overlay
from .geojson import is_geometry
from .progress import faults_of
from .relations import relate_one
from .text import SNAPPED, Fill, RelationSolver, Solver

# ---- overlays


def intersection(
    subject: Any,
    clip: Any,
    fill: Fill = "nonzero",
    *,
    minimum_area: int = 0,
    solver: Solver = SNAPPED,
    **look: bool,
) -> Any:
    """Returns the shapes round what both fill: `overlay` with the rule intersect."""
    return overlay(subject, clip, "intersect", fill, minimum_area=minimum_area, solver=solver, **look)


def union(
    subject: Any,
    clip: Any,
    fill: Fill = "nonzero",
    *,
    minimum_area: int = 0,
    solver: Solver = SNAPPED,
    **look: bool,
) -> Any:
    """Returns the shapes round what one of them fills, or both: `overlay` with the rule union."""
    return overlay(subject, clip, "union", fill, minimum_area=minimum_area, solver=solver, **look)


def difference(
    subject: Any,
    clip: Any,
    fill: Fill = "nonzero",
    *,
    minimum_area: int = 0,
    solver: Solver = SNAPPED,
    **look: bool,
) -> Any:
    """Returns the shapes round what the subject fills and the clip does not: `overlay` with the rule difference."""
    return overlay(subject, clip, "difference", fill, minimum_area=minimum_area, solver=solver, **look)


def symmetric_difference(
    subject: Any,
    clip: Any,
    fill: Fill = "nonzero",
    *,
    minimum_area: int = 0,
    solver: Solver = SNAPPED,
    **look: bool,
) -> Any:
    """Returns the shapes round what exactly one of them fills: `overlay` with the rule xor."""
    return overlay(subject, clip, "xor", fill, minimum_area=minimum_area, solver=solver, **look)


def union_all(
    groups: Iterable[Any],
    fill: Fill = "nonzero",
    *,
    minimum_area: int = 0,
    solver: Solver = SNAPPED,
    **look: bool,
) -> Any:
    """Returns the shapes round what any of some lists of contours fills, each by itself under the fill rule. They are
    those of `overlay`, which is asked for the shapes of each list first. A fault names the list's number, from 1."""
    contours: list[Any] = []
    for number, each in enumerate(listed_groups(groups), 1):
        with faults_of(f"group {number}"):
            shapes = overlay(each, (), "subject", fill, solver=solver)
        contours += [contour for shape in shapes for contour in shape]
    return overlay(contours, (), "subject", "nonzero", minimum_area=minimum_area, solver=solver, **look)


def listed_groups(groups: Any) -> list[Any]:
    """The groups to be joined; a geometry is one of them."""
    check_unused("groups", groups, "a list of groups")
    return [groups] if is_geometry(groups) else list(groups)


# ---- relations


def intersects(subject: Any, clip: Any, fill: Fill = "nonzero", *, solver: RelationSolver | None = None) -> bool:
    """Returns whether some point is in both closed regions."""
    return relate_one("intersects", subject, clip, fill, solver=solver)


def interiors_intersect(
    subject: Any, clip: Any, fill: Fill = "nonzero", *, solver: RelationSolver | None = None
) -> bool:
    """Returns whether some point off the edges is filled by both."""
    return relate_one("interiors_intersect", subject, clip, fill, solver=solver)


def touches(subject: Any, clip: Any, fill: Fill = "nonzero", *, solver: RelationSolver | None = None) -> bool:
    """Returns whether they intersect, and no point off the edges is filled by both."""
    return relate_one("touches", subject, clip, fill, solver=solver)


def point_intersects(subject: Any, clip: Any, fill: Fill = "nonzero", *, solver: RelationSolver | None = None) -> bool:
    """Returns whether they meet in single points alone."""
    return relate_one("point_intersects", subject, clip, fill, solver=solver)


def within(subject: Any, clip: Any, fill: Fill = "nonzero", *, solver: RelationSolver | None = None) -> bool:
    """Returns whether the subject fills some point off the edges, and the clip fills each such point."""
    return relate_one("within", subject, clip, fill, solver=solver)


def disjoint(subject: Any, clip: Any, fill: Fill = "nonzero", *, solver: RelationSolver | None = None) -> bool:
    """Returns whether they do not intersect."""
    return relate_one("disjoint", subject, clip, fill, solver=solver)


def covers(subject: Any, clip: Any, fill: Fill = "nonzero", *, solver: RelationSolver | None = None) -> bool:
    """Returns whether the clip lies within the subject."""
    return relate_one("covers", subject, clip, fill, solver=solver)
