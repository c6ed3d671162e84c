"""Each call as the program answers it, which splits edges in rounds, whatever solver is named."""

from __future__ import annotations

from typing import Any

from .contour import double_area
from .errors import NotResolved
from .grid import misfit
from .program import BadLine, answer
from .text import FILLS, LOCATIONS, RELATIONS, ROUNDS, RULES, coordinate, edges_in, items_of, lines_of, paths_in
from .text import shapes_in

NAME = "program"


def asked_of_two(command: str, subject: Any, clip: Any) -> str:
    """The answer to a command over contours of a subject and a clip."""
    return answer(f"{lines_of('subject', subject)}{lines_of('clip', clip)}run {command}\n")


def asked_of_lines(command: str, shape: Any, lines: Any) -> str:
    """The answer to a command over the contours of a shape and open paths."""
    return answer(f"{lines_of('subject', shape)}{lines_of('line', lines)}run {command}\n")


def options(look: Any) -> str:
    """The words of the options of an overlay."""
    chosen = [("ogc", look.ogc), ("clockwise", look.clockwise), ("keep", look.keep)]
    chosen.append((f"min {look.minimum_area}", look.minimum_area))
    return "".join(f" {name}" for name, is_set in chosen if is_set)


def overlay(subject: Any, clip: Any, rule: str, fill: str, look: Any) -> list[Any]:
    """The shapes of an overlay."""
    return shapes_in(asked_of_two(f"overlay {RULES[rule]} {FILLS[fill]}{options(look)}", subject, clip))[0]


def hierarchy(subject: Any, clip: Any, rule: str, fill: str, look: Any) -> tuple[list[Any], list[Any]]:
    """The shapes of an overlay, and its links."""
    return shapes_in(asked_of_two(f"hierarchy {RULES[rule]} {FILLS[fill]}{options(look)}", subject, clip))


def simplify(subject: Any, fill: str, look: Any) -> list[Any]:
    """The shapes that contours are simplified to: those of an overlay, or one simple contour as it is given, or
    reversed. The program has no such command: that a contour is simple is told here."""
    contours = [[(coordinate(x), coordinate(y)) for x, y in items_of(contour)] for contour in subject]
    shapes = overlay(contours, (), "subject", fill, look)
    if len(contours) != 1 or look.minimum_area or not shapes or not is_simple(contours[0]):
        return shapes
    is_clockwise = double_area(contours[0]) < 0
    return [contours if is_clockwise == bool(look.clockwise) else [contours[0][::-1]]]


def is_simple(contour: list[Any]) -> bool:
    """Whether no point comes twice, and the edges of the arrangement are the steps: none is left out or cut."""
    steps = {tuple(sorted(step)) for step in zip(contour, contour[1:] + contour[:1])}
    return len(set(contour)) == len(contour) and steps == {edge[:2] for edge in edges([contour], (), "nonzero", ROUNDS)}


def edges(subject: Any, clip: Any, fill: str, _: str) -> list[Any]:
    """The edges of the arrangement."""
    return edges_in(asked_of_two(f"edges {FILLS[fill]}", subject, clip))


def relate(subject: Any, clip: Any, fill: str, _: str) -> dict[str, bool]:
    """The truth of each relation."""
    told = asked_of_two(f"relate {FILLS[fill]}", subject, clip).split()
    return {name: told[2 * at + 1] == "true" for at, name in enumerate(RELATIONS)}


def relate_one(relation: str, subject: Any, clip: Any, fill: str, solver: str) -> bool:
    """Whether the relation with the name holds."""
    return relate(subject, clip, fill, solver)[relation]


def clip(shape: Any, lines: Any, fill: str, invert: bool, boundary: bool, _: str) -> list[Any]:
    """The parts of open paths that are kept."""
    chosen = " invert" * bool(invert) + " boundary" * bool(boundary)
    return paths_in(asked_of_lines(f"clip {FILLS[fill]}{chosen}", shape, lines))


def slice(shape: Any, lines: Any, fill: str, _: str) -> list[Any]:  # pylint: disable=redefined-builtin
    """The shapes into which open paths cut a shape."""
    return shapes_in(asked_of_lines(f"slice {FILLS[fill]}", shape, lines))[0]


def tiles(shape: Any, width: int, height: int, fill: str, _: str) -> list[Any]:
    """The shapes into which the cells of a grid cut a shape."""
    try:
        return shapes_in(asked_of_lines(f"tiles {FILLS[fill]} {width} {height}", shape, []))[0]
    except BadLine:
        raise misfit(width, height) from None


def is_resolved(shape: Any) -> bool:
    """Whether each contour is resolved: the program takes no other one, whatever points it is asked about."""
    try:
        answer(f"{lines_of('subject', shape)}run locate\n")
    except BadLine:
        return False
    return True


def locate(shape: Any, points: Any) -> bytearray:
    """Where each point lies: the place of its word in `LOCATIONS`."""
    given = lines_of("subject", shape) + "".join(lines_of("point", [[point]]) for point in items_of(points))
    try:
        return bytearray(map(LOCATIONS.index, answer(f"{given}run locate\n").split()))
    except BadLine as bad:
        raise NotResolved(bad.line) from None
