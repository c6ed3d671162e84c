"""Shapes of an overlay by the steps of their contours, each with the sides that are filled."""

from __future__ import annotations

from typing import Any, NamedTuple

from . import by_library, calls
from .errors import LibraryMissing
from .text import FILLS, RULES, SNAPPED, Fill, Rule, Solver, known

MISSING = (
    "no library that tells filled sides of shapes, and the program does not: "
    "the library of this version is in a release's wheel, or scripts/build or make -C c builds it"
)


class VectorEdge(NamedTuple):
    """A step of a contour from a to b, with the sum of the bits of its filled sides, seen on the way."""

    a: tuple[int, int]
    b: tuple[int, int]
    fill: int


def vectors(
    subject: Any,
    clip: Any = (),
    rule: Rule = "union",
    fill: Fill = "nonzero",
    *,
    clockwise: bool = False,
    keep: bool = False,
    minimum_area: int = 0,
    solver: Solver = SNAPPED,
) -> list[list[list[VectorEdge]]]:
    """Returns the shapes round the region of `overlay`, each contour by its steps, with the sides that each fills.
    Contours may touch themselves in points. A point on one line with its two neighbours is dropped only where the steps
    at it have equal sides. The program has no such call: without the library there is LibraryMissing."""
    look = calls.look_of(False, clockwise, keep, minimum_area, solver)
    rule, fill = known(RULES, rule, "rule"), known(FILLS, fill, "fill rule")
    subject, clip = calls.listed("subject", subject), calls.listed("clip", clip)
    if not by_library.can("vectors"):
        raise LibraryMissing(MISSING)
    with calls.placed(subject=subject, clip=clip):
        shapes = by_library.vectors(subject, clip, rule, fill, look)
    return [[steps_of(contour) for contour in shape] for shape in shapes]


def steps_of(contour: list[tuple[tuple[int, int], int]]) -> list[VectorEdge]:
    """The steps of a contour of points, each with the sides of the step that begins there."""
    behind = contour[1:] + contour[:1]
    return [VectorEdge(a, b, sides) for (a, sides), (b, _) in zip(contour, behind)]
