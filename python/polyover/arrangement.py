"""Arrangements of two lists of contours, which are asked for any overlay."""

from __future__ import annotations

from typing import Any

from . import by_library, calls
from .errors import BadInput, LibraryMissing
from .held import HeldGraph
from .shapes import Shapes
from .text import FILLS, RULES, SNAPPED, Fill, Rule, Solver, known

MISSING = (
    "no library that has arrangements, and the program has none: "
    "the library of this version is in a release's wheel, or scripts/build or make -C c builds it"
)


class Arrangement:
    """Two lists of contours, whose edges are split where they meet once, to be asked for any overlay of them.

    Each answer is that of the call with its name. The contours may go. Threads may ask at once. Its memory is given
    back by `close`, at the end of `with`, or else once nothing refers to it. The program has no arrangements: without
    the library there is LibraryMissing.
    """

    def __init__(self, subject: Any, clip: Any = (), fill: Fill = "nonzero", *, solver: Solver = SNAPPED) -> None:
        self._held: HeldGraph | None = None
        self._solver = calls.solver_of(solver)
        fill = known(FILLS, fill, "fill rule")
        subject, clip = calls.listed("subject", subject), calls.listed("clip", clip)
        if not by_library.can("arrange"):
            raise LibraryMissing(MISSING)
        with calls.placed(subject=subject, clip=clip):
            self._held = by_library.arrange(subject, clip, fill, self._solver)

    def overlay(
        self,
        rule: Rule = "union",
        *,
        ogc: bool = True,
        clockwise: bool = False,
        keep: bool = False,
        minimum_area: int = 0,
        arrays: bool = False,
    ) -> Any:
        """Returns the shapes round the region where the rule holds. With `arrays` they are `FlatShapes`."""
        look = calls.look_of(ogc, clockwise, keep, minimum_area, self._solver)
        found = by_library.flat_shapes if arrays else by_library.shapes_in
        answer = by_library.graph_overlay(self._asked(), known(RULES, rule, "rule"), look, found)
        return answer if arrays else Shapes(answer)

    def hierarchy(
        self,
        rule: Rule = "union",
        *,
        ogc: bool = True,
        clockwise: bool = False,
        keep: bool = False,
        minimum_area: int = 0,
    ) -> tuple[Shapes, list[tuple[int, int, int]]]:
        """Returns the shapes of `overlay`, and for each shape in a hole three numbers, as the call `hierarchy` does."""
        look = calls.look_of(ogc, clockwise, keep, minimum_area, self._solver)
        shapes, links = by_library.graph_hierarchy(self._asked(), known(RULES, rule, "rule"), look)
        return Shapes(shapes), links

    def edges(self) -> list[tuple[Any, Any, int]]:
        """Returns the edges in order: two points, and the sum of the bits of the filled sides."""
        return by_library.graph_edges(self._asked())

    def close(self) -> None:
        """Gives the memory back; a question that another thread asks meanwhile is answered first."""
        self._held = None

    def __enter__(self) -> Arrangement:
        return self

    def __exit__(self, *_: object) -> None:
        self.close()

    def _asked(self) -> HeldGraph:
        """What is asked."""
        held = self._held
        if held is None:
            raise BadInput("the arrangement was closed")
        return held
