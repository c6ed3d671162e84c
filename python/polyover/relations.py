"""Relations of two lists of contours: of these as they are given, which the library tells, or of their arrangement."""

from __future__ import annotations

import warnings
from functools import partial
from typing import Any, Callable, Sequence

from . import by_library
from .calls import asked, listed, placed
from .contour import Row, WholePath, room_of, shifted
from .errors import LibraryMissing, NotSettled, PolyoverWarning
from .flat import flat_rows
from .text import AS_GIVEN, FILLS, RELATION_SOLVERS, SNAPPED, Fill, RelationSolver, Solver, coordinate, items_of, known

# (by how many powers of two relations are told coarser where rounds do not settle)
COARSER = 8
NO_EXACT = (
    "no library that tells relations of contours as they are given, and the program tells those of an arrangement: "
    "the library of this version is in a release's wheel, or scripts/build or make -C c builds it"
)


def is_exact(solver: RelationSolver | None) -> bool:
    """Whether relations are told of the contours as they are given: where that is asked for, or nothing is and the
    library does so. Raises LibraryMissing where it is asked for in vain."""
    if solver is not None and known(RELATION_SOLVERS, solver, "solver") != AS_GIVEN:
        return False
    is_there = by_library.can("relate_exact")
    if solver is not None and not is_there:
        raise LibraryMissing(NO_EXACT)
    return is_there


def is_told_exactly(solver: RelationSolver | None) -> bool:
    """As `is_exact`, with a warning to the caller of a call where no solver is named and the library does not do so."""
    found = is_exact(solver)
    if solver is None and not found:
        warnings.warn(f"relations are those of an arrangement: {NO_EXACT}", PolyoverWarning, stacklevel=3)
    return found


def splitting(solver: RelationSolver | None) -> Solver:
    """The solver that splits edges where relations are those of an arrangement."""
    return SNAPPED if solver is None or solver == "exact" else solver


def relate(
    subject: Any, clip: Any, fill: Fill = "nonzero", *, solver: RelationSolver | None = None
) -> dict[str, bool]:
    """Returns which relations hold: a dictionary from the seven names to truths.

    By the library they are those of the contours as they are given: nothing is rounded. With a solver, and by the
    program, which a warning says, they hold of the arrangement of the coordinates times the greatest power of two that
    keeps them in the range. Its chains stay within half a unit of that scale of their edges, for each round that moved
    a point. Where rounds do not settle there, a smaller power is taken, with a warning; NotSettled comes where even 1
    does not settle. The solver "exact" asks for the library's: LibraryMissing comes where it has none."""
    fill = known(FILLS, fill, "fill rule")
    if is_told_exactly(solver):
        return told_exactly(subject, clip, fill)
    return dict(told_finest(relations_as_given, subject, clip, fill, splitting(solver)))


def relate_one(
    relation: str, subject: Any, clip: Any, fill: Fill = "nonzero", *, solver: RelationSolver | None = None
) -> bool:
    """Returns whether the relation with the name holds, as `relate` tells it."""
    fill = known(FILLS, fill, "fill rule")
    if is_told_exactly(solver):
        return one_told_exactly(relation, subject, clip, fill)
    return bool(told_finest(partial(relation_as_given, relation), subject, clip, fill, splitting(solver)))


# ---- of the contours as they are given


def told_exactly(subject: Any, clip: Any, fill: Fill) -> dict[str, bool]:
    """Returns which relations hold of the contours as they are given."""
    subject, clip = listed("subject", subject), listed("clip", clip)
    with placed(subject=subject, clip=clip):
        return by_library.relate_exact(subject, clip, fill)


def one_told_exactly(relation: str, subject: Any, clip: Any, fill: Fill) -> bool:
    """Returns whether one relation holds of them."""
    subject, clip = listed("subject", subject), listed("clip", clip)
    with placed(subject=subject, clip=clip):
        return by_library.relate_one_exact(relation, subject, clip, fill)


def bits_of_rows(subject: Sequence[Row], clip: Sequence[Row]) -> int:
    """Returns the sum of the bits of the relations of contours in rows, for the fill rule nonzero."""
    return by_library.exact_bits(flat_rows(subject), flat_rows(clip), "nonzero")


def holds_of_rows(relation: str, subject: Sequence[Row], clip: Sequence[Row]) -> bool:
    """Returns whether one relation holds of them, for that fill rule."""
    return by_library.relate_one_exact(relation, flat_rows(subject), flat_rows(clip), "nonzero")


# ---- of an arrangement


def relations_as_given(subject: list[Any], clip: list[Any], fill: str, solver: str) -> dict[str, bool]:
    """Returns which relations hold of the arrangement of the contours at their scale."""
    return dict(asked("relate").relate(subject, clip, fill, solver))


def relation_as_given(relation: str, subject: list[Any], clip: list[Any], fill: str, solver: str) -> bool:
    """Returns whether one relation holds of that arrangement."""
    return bool(asked("relate_one").relate_one(relation, subject, clip, fill, solver))


def whole_path_of(path: Any) -> WholePath:
    """The points of a path as ints, in the range."""
    return [(coordinate(x), coordinate(y)) for x, y in items_of(path)]


def told_finest(told_as_given: Callable[..., Any], subject: Any, clip: Any, fill: Fill, solver: Solver) -> Any:
    """Returns what is told of the contours at the finest scale in the range at which splitting settles."""
    subject, clip = listed("subject", subject), listed("clip", clip)
    with placed(subject=subject, clip=clip):
        whole_points = [[whole_path_of(path) for path in paths] for paths in (subject, clip)]
    finest = power = room_of([path for paths in whole_points for path in paths])
    while True:
        try:
            told = told_as_given(shifted(whole_points[0], power), shifted(whole_points[1], power), fill, solver)
        except NotSettled:
            if power == 0:
                raise
            power = max(0, power - COARSER)
            continue
        if power < finest:
            how = f"of coordinates times 2^{power}, since splitting did not settle at 2^{finest}"
            warnings.warn(f"relations are those of the arrangement {how}", PolyoverWarning, stacklevel=3)
        return told
