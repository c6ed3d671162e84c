"""Shapes that are asked again and again where points lie."""

from __future__ import annotations

import warnings
from typing import Any, Literal, overload

from . import by_library, calls
from .errors import BadInput, LibraryMissing, PolyoverWarning
from .held import HeldShape
from .text import AS_GIVEN, FILLS, LOCATIONS, RELATION_SOLVERS, SNAPPED, Fill, RelationSolver, known

MISSING = (
    "no library that has prepared shapes, and the program has none: "
    "the library of this version is in a release's wheel, or scripts/build or make -C c builds it"
)
NO_EXACT = (
    "no library that tells where points lie in contours as they are given: "
    "the library of this version is in a release's wheel, or scripts/build or make -C c builds it"
)
OF_ARRANGEMENT = "points are located in the arrangement of the contours: the library is older"
IS_INSIDE = bytes(word == "inside" for word in LOCATIONS).ljust(256, b"\0")


def solver_of(solver: RelationSolver | None, level: int = 3) -> RelationSolver:
    """The solver by which a shape is prepared: "exact" if none is asked for, unless the library is older. A warning
    tells the caller so at this level. Raises LibraryMissing where "exact" is asked for in vain."""
    if solver is not None and known(RELATION_SOLVERS, solver, "solver") != AS_GIVEN:
        return solver
    if by_library.can("prepare_exact"):
        return AS_GIVEN
    if solver is not None:
        raise LibraryMissing(NO_EXACT)
    if by_library.can("prepare"):
        warnings.warn(OF_ARRANGEMENT, PolyoverWarning, stacklevel=level)
    return SNAPPED


class Prepared:
    """A shape that is asked again and again where points lie: what any contours fill under a fill rule.

    The contours may cross themselves and others. They are taken as they are given, and nothing is rounded: a point lies
    inside where all points near it off the contours are filled, outside where none is, and else on the boundary. A
    question asks their edges alone, so the contours may go.

    With a solver it is the shape of their arrangement, and so it is, with a warning, by a library that is older. The
    solver "exact" asks for the contours as they are given.

    Threads may ask at once. Its memory is given back by `close`, at the end of `with`, or else once nothing refers to
    it. The program has no prepared shapes: without the library there is LibraryMissing.
    """

    def __init__(self, shape: Any, fill: Fill = "nonzero", *, solver: RelationSolver | None = None) -> None:
        self._held: HeldShape | None = None
        fill, solver, shape = known(FILLS, fill, "fill rule"), solver_of(solver), calls.listed("shape", shape)
        if solver != AS_GIVEN and not by_library.can("prepare"):
            raise LibraryMissing(MISSING)
        with calls.placed(shape=shape):
            if solver == AS_GIVEN:
                self._held = by_library.prepare_exact(shape, fill)
            else:
                self._held = by_library.prepare(shape, fill, solver)

    @overload
    def locate(self, points: Any, *, arrays: Literal[False] = False) -> list[str]: ...

    @overload
    def locate(self, points: Any, *, arrays: Literal[True]) -> memoryview: ...

    def locate(self, points: Any, *, arrays: bool = False) -> list[str] | memoryview:
        """Returns where each point lies: "inside", "boundary" or "outside". With `arrays` it is an array of bytes: of
        each point the place of its word in `LOCATIONS`."""
        found = self._located(points)
        return memoryview(found) if arrays else calls.words_of(found)

    @overload
    def contains(self, points: Any, *, arrays: Literal[False] = False) -> list[bool]: ...

    @overload
    def contains(self, points: Any, *, arrays: Literal[True]) -> memoryview: ...

    def contains(self, points: Any, *, arrays: bool = False) -> list[bool] | memoryview:
        """Returns whether each point lies inside; on the boundary it does not. With `arrays` they are in an array."""
        truths = memoryview(self._located(points).translate(IS_INSIDE)).cast("?")
        return truths if arrays else truths.tolist()  # type: ignore[return-value]

    def close(self) -> None:
        """Gives the memory back; a question that another thread asks meanwhile is answered first."""
        self._held = None

    def __enter__(self) -> Prepared:
        return self

    def __exit__(self, *_: object) -> None:
        self.close()

    def _located(self, points: Any) -> bytearray:
        """The place of each point's word."""
        held = self._held
        if held is None:
            raise BadInput("the prepared shape was closed")
        whole = self._whole(points)
        with calls.placed(points=[whole]):
            return held.locate(whole)

    def _whole(self, points: Any) -> Any:
        """The points that are given, with whole coordinates."""
        return calls.listed_queries(points)
