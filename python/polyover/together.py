"""Many small questions by one call: each pair of groups is moved in x, so that all lie side by side, and what is
answered is moved back. An arrangement is the same wherever it lies, and answers stand in the order of their places; so
each pair has the answer that it would have alone."""

from __future__ import annotations

from array import array
from bisect import bisect_right
from itertools import chain
from struct import pack
from typing import Any, Callable, Iterable, Iterator, NamedTuple, Sequence

from . import calls
from .contour import Row, WholePath, points_in
from .errors import NotSettled, OutOfMemory, TooManyEdges
from .flat import Flat, FlatShapes
from .nearby import MARGIN
from .progress import faults_of
from .text import LIMIT

# two groups of paths, each a row, or, where they are asked alone, a list of points; answers are rows
Pair = tuple[Sequence[Row], Sequence[Row]]
Points = tuple[Sequence[WholePath], Sequence[WholePath]]
# (points that are asked at once)
POINTS = 50_000
REFUSED = (MemoryError, NotSettled, OutOfMemory, TooManyEdges)


class Side:
    """Contours, or lines, of many pairs in arrays."""

    def __init__(self) -> None:
        self.xs: Row = []
        self.ys: Row = []
        self.ends: list[int] = []

    def add(self, rows: Sequence[Row], xs: Sequence[Row], move: int) -> None:
        """Adds paths, whose x are given too, moved in x."""
        for row, across in zip(rows, xs):
            self.xs += [x + move for x in across]
            self.ys += row[1::2]
            self.ends.append(len(self.ys))

    def flat(self) -> Flat:
        """The arrays as calls take them."""
        row = [0] * (2 * len(self.xs))
        row[0::2], row[1::2] = self.xs, self.ys
        return Flat.of_arrays(array("q", pack(f"{len(row)}q", *row)), array("Q", self.ends))


class Together:
    """Pairs side by side: at which x each begins, and by how much it was moved."""

    def __init__(self, pairs: Iterable[Pair]) -> None:
        self.first, self.second = Side(), Side()
        self.starts: list[int] = []
        self.moves: list[int] = []
        self.places: list[int] = []
        self.has_room = True
        at = -LIMIT
        for place, pair in enumerate(pairs):
            first, second = ([row[0::2] for row in rows] for rows in pair)
            ends = [end for xs in (*first, *second) if xs for end in (min(xs), max(xs))]
            if not ends:
                continue
            left, right = min(ends), max(ends)
            if at + right - left > LIMIT:
                self.has_room = False
                return
            move = at - left
            self.first.add(pair[0], first, move)
            self.second.add(pair[1], second, move)
            self.places.append(place)
            self.starts.append(at - MARGIN)
            self.moves.append(move)
            at += right - left + 2 * MARGIN

    def moved_back(self, x: int) -> tuple[int, int]:
        """The place of the pair that is at an x, and by how much it was moved."""
        at = bisect_right(self.starts, x) - 1
        return self.places[at], self.moves[at]


def paths_of(together: Together, found: Flat, count: int) -> list[list[Row]]:
    """The paths of each pair."""
    answers: list[list[Row]] = [[] for _ in range(count)]
    numbers, start = found.numbers.tolist(), 0
    for end in found.counts.tolist():
        row = numbers[2 * start : 2 * end]
        place, move = together.moved_back(row[0])
        row[0::2] = [x - move for x in row[0::2]]
        answers[place].append(row)
        start = end
    return answers


def shapes_of(together: Together, found: FlatShapes, count: int) -> list[list[list[Row]]]:
    """The shapes of each pair."""
    answers: list[list[list[Row]]] = [[] for _ in range(count)]
    numbers, ends = found.contours.numbers.tolist(), found.contours.counts.tolist()
    start = first = 0
    for last in found.shape_ends.tolist():
        place, move = together.moved_back(numbers[2 * start])
        shape = []
        for end in ends[first:last]:
            row = numbers[2 * start : 2 * end]
            row[0::2] = [x - move for x in row[0::2]]
            shape.append(row)
            start = end
        answers[place].append(shape)
        first = last
    return answers


class Asked(NamedTuple):
    """A pair that is asked, and the place that its faults name."""

    place: object
    first: Sequence[Row]
    second: Sequence[Row]

    @property
    def pair(self) -> Pair:
        """The pair."""
        return self.first, self.second

    @property
    def points(self) -> Points:
        """The pair as lists of points."""
        return list(map(points_in, self.first)), list(map(points_in, self.second))

    @property
    def size(self) -> int:
        """How many points it has."""
        return sum(map(len, chain(self.first, self.second))) // 2


def parts_of(asked: Iterable[Asked]) -> Iterator[list[Asked]]:
    """The parts of a list that are asked at once: by their points, but of one item at least."""
    part: list[Asked] = []
    points = 0
    for each in asked:
        size = each.size
        if part and points + size > POINTS:
            yield part
            part, points = [], 0
        part.append(each)
        points += size
    if part:
        yield part


def answers(
    asked: Iterable[Asked], source: str, all_at_once: Callable[[list[Pair]], Any], one: Callable[[Points], Any]
) -> Iterator[Any]:
    """What is answered of each pair, in rows; one by one where a part is one pair, or is not answered. Then a fault
    names the source, and the pair's place."""
    for part in parts_of(asked):
        found = all_at_once([each.pair for each in part]) if len(part) > 1 else None
        if found is not None:
            yield from found
            continue
        for each in part:
            with faults_of(source, place=each.place):
                told = one(each.points)
            yield rows_in(told)


def rows_in(answer: Any) -> Any:
    """Paths, or shapes, with the coordinates of each in a row."""
    return [rows_in(each) if isinstance(each[0], list) else list(chain.from_iterable(each)) for each in answer]


# ---- the calls


def clips(pairs: Sequence[Pair], fill: Any, **options: Any) -> list[list[Row]] | None:
    """Of each pair of a shape and lines the paths that `clip` leaves, with their coordinates in rows; none of all where
    these can't be asked at once, or the call is refused."""
    together = Together(pairs)
    if not together.has_room:
        return None
    try:
        found = calls.clip(together.first.flat(), together.second.flat(), fill, arrays=True, **options)
    except REFUSED:
        return None
    return paths_of(together, found, len(pairs))


def overlays(pairs: Sequence[Pair], rule: Any, fill: Any, **look: Any) -> list[list[list[Row]]] | None:
    """Of each pair of a subject and a clip the shapes of `overlay`, likewise."""
    together = Together(pairs)
    if not together.has_room:
        return None
    try:
        found = calls.overlay(together.first.flat(), together.second.flat(), rule, fill, arrays=True, **look)
    except REFUSED:
        return None
    return shapes_of(together, found, len(pairs))


def slices(pairs: Sequence[Pair], fill: Any, **look: Any) -> list[list[list[Row]]] | None:
    """Of each pair of a shape and lines the shapes of `slice`, likewise."""
    together = Together(pairs)
    if not together.has_room:
        return None
    try:
        found = calls.slice(together.first.flat(), together.second.flat(), fill, arrays=True, **look)
    except REFUSED:
        return None
    return shapes_of(together, found, len(pairs))
