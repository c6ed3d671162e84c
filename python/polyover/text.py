"""Inputs and answers of the program as text."""

from __future__ import annotations

from operator import index
from typing import Any, Collection, Iterable, Literal, TypeVar

from .errors import BadInput, BadType
from .numbers import is_truth

Points = Iterable[Any]
# the words that the calls take
Rule = Literal["subject", "clip", "intersect", "union", "difference", "inverse_difference", "xor"]
Fill = Literal["evenodd", "nonzero", "positive", "negative"]
Solver = Literal["snapped", "rounds"]
RelationSolver = Literal["exact", "snapped", "rounds"]
Word = TypeVar("Word")

LIMIT = 2**62 - 1
RULES = {
    "subject": "Subject",
    "clip": "Clip",
    "intersect": "Intersect",
    "union": "Union",
    "difference": "Difference",
    "inverse_difference": "InverseDifference",
    "xor": "Xor",
}
FILLS = {"evenodd": "EvenOdd", "nonzero": "NonZero", "positive": "Positive", "negative": "Negative"}
# (how edges are split where they meet, by the numbers of the library)
SNAPPED: Solver = "snapped"
ROUNDS: Solver = "rounds"
SOLVERS = (SNAPPED, ROUNDS)
# (relations are told without a solver, of contours as they are given, or of an arrangement by one)
AS_GIVEN: RelationSolver = "exact"
RELATION_SOLVERS: tuple[RelationSolver, ...] = (AS_GIVEN, *SOLVERS)
# (where a point lies, by the numbers of the library)
LOCATIONS = ("outside", "inside", "boundary")
RELATIONS = ("intersects", "interiors_intersect", "touches", "point_intersects", "within", "disjoint", "covers")
RELATION_BITS = {name: 1 << at for at, name in enumerate(RELATIONS)}


def known(words: Collection[str], name: Word, what: str) -> Word:
    """The name of a rule or a solver, which is one of those that there are."""
    is_known = isinstance(name, str) and name in words
    if not is_known:
        raise BadInput(f"unknown {what} {name!r}: one of {', '.join(words)}")
    return name


def whole(value: Any) -> int:
    """A whole number."""
    if is_truth(value):
        raise BadType(f"{value!r} is no number, but a truth")
    try:
        return index(value)
    except TypeError:
        raise BadInput(f"{value!r} is no whole number: Scaled takes floats") from None


def truth(name: str, value: Any) -> bool:
    """The value of an option that is true or false: a truth, 1 or 0. (A text as "no" would be true.)"""
    if is_truth(value) or type(value) is int and value in (0, 1):
        return bool(value)
    raise BadInput(f"{name}: {value!r} is neither true nor false")


def coordinate(value: Any) -> int:
    """A whole number in the coordinate range."""
    number = whole(value)
    if abs(number) > LIMIT:
        raise BadInput(f"{number} is out of range: at most {LIMIT} from 0")
    return number


def items_of(path: Points) -> Points:
    """The points of a path. (Python's own arrays of two dimensions can't be gone over.)"""
    return path.tolist() if isinstance(path, memoryview) else path


def lines_of(kind: str, paths: Iterable[Points]) -> str:
    """A line of an input for each path."""
    points = map(items_of, paths)
    return "".join(f"{kind}{''.join(f' {coordinate(x)} {coordinate(y)}' for x, y in path)}\n" for path in points)


def printed_path(points: Points) -> str:
    """The line of a contour or path in an answer."""
    return " ".join(f"{x} {y}" for x, y in points) + "\n"


def printed_shapes(shapes: Iterable[Iterable[Points]]) -> str:
    """The lines of shapes in an answer."""
    return "".join("shape\n" + "".join(map(printed_path, shape)) for shape in shapes)


def points_in(line: str) -> list[tuple[int, int]]:
    """The points of a line of numbers."""
    numbers = [int(each) for each in line.split()]
    return list(zip(numbers[0::2], numbers[1::2]))


def paths_in(answer: str) -> list[list[tuple[int, int]]]:
    """The paths of an answer."""
    return [points_in(line) for line in answer.splitlines()]


def shapes_in(answer: str) -> tuple[list[Any], list[Any]]:
    """The shapes of an answer, each a list of contours, and its links."""
    shapes: list[Any] = []
    links: list[Any] = []
    for line in answer.splitlines():
        first, _, rest = line.partition(" ")
        if first == "shape":
            shapes.append([])
        elif first == "link":
            links.append(tuple(int(each) for each in rest.split()))
        else:
            shapes[-1].append(points_in(line))
    return shapes, links


def edges_in(answer: str) -> list[Any]:
    """The edges of an answer: two points, and the sum of the bits of the filled sides."""
    numbers = [[int(each) for each in line.split()[1:]] for line in answer.splitlines()]
    return [((ax, ay), (bx, by), fill) for ax, ay, bx, by, fill in numbers]
