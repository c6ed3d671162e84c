"""Edges of an arrangement, each with the given steps on which it lies."""

from __future__ import annotations

from typing import Any, Literal, NamedTuple

from . import by_library, calls
from .errors import LibraryMissing
from .text import FILLS, RULES, SNAPPED, Fill, Rule, Solver, known, truth

MISSING = (
    "no library that traces edges, and the program does not: "
    "the library of this version is in a release's wheel, or scripts/build or make -C c builds it"
)
SUBJECT: Literal["subject"] = "subject"
CLIP: Literal["clip"] = "clip"


class Source(NamedTuple):
    """A given step on which an edge lies. Paths and their steps are counted from 0."""

    side: Literal["subject", "clip"]
    path: int
    step: int
    cut: bool  # into pieces
    reversed: bool  # it runs against the edge


class TracedEdge(NamedTuple):
    """An edge from its smaller to its larger end, with the sum of the bits of its filled sides, and its sources."""

    a: tuple[int, int]
    b: tuple[int, int]
    fill: int
    sources: list[Source]


def trace(
    subject: Any,
    clip: Any = (),
    rule: Rule | None = None,
    fill: Fill = "nonzero",
    *,
    closed: bool = True,
    solver: Solver = SNAPPED,
) -> list[TracedEdge]:
    """Returns the edges of the arrangement in order, each with the steps of subject and clip on which it lies. With a
    rule these are the edges where it holds on one side. Unless `closed`, the paths are open. The program has no such
    call: without the library there is LibraryMissing."""
    fill, solver = known(FILLS, fill, "fill rule"), calls.solver_of(solver)
    rule = None if rule is None else known(RULES, rule, "rule")
    subject, clip, is_closed = calls.listed(SUBJECT, subject), calls.listed(CLIP, clip), truth("closed", closed)
    if not by_library.can("trace"):
        raise LibraryMissing(MISSING)
    with calls.placed(subject=subject, clip=clip):
        edges, steps = by_library.trace(subject, clip, rule, fill, solver, is_closed)
    return [TracedEdge(a, b, bits, [source_of(steps, *it) for it in sources]) for a, b, bits, sources in edges]


def source_of(steps: list[tuple[int, int, int]], number: int, cut: int, is_reversed: int) -> Source:
    """The given step with that number."""
    side, path, step = steps[number]
    return Source(CLIP if side else SUBJECT, path, step, cut == 1, is_reversed == 1)
