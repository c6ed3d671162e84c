"""Contours by themselves: their area, their box, and whether they have an inside."""

from __future__ import annotations

from itertools import chain
from operator import mul, ne
from typing import Any, NamedTuple, Sequence

from .text import LIMIT

WholePoint = tuple[int, int]
WholePath = list[WholePoint]
# (the coordinates of a path, x before y)
Row = list[int]


def double_area(contour: Sequence[Any]) -> Any:
    """Twice the area inside a contour, negative where it runs clockwise; exact for whole numbers."""
    if not contour:
        return 0
    xs, ys = zip(*contour)
    return sum(map(mul, xs, (*ys[1:], ys[0]))) - sum(map(mul, ys, (*xs[1:], xs[0])))


def without_repeats(contour: WholePath) -> WholePath:
    """A contour without points that are equal to the one before them."""
    before = [contour[-1], *contour[:-1]]
    if all(map(ne, contour, before)):
        return contour
    return [point for point, last in zip(contour, before) if point != last] or contour[:1]


def is_flat(contour: WholePath) -> bool:
    """Whether all points of a contour are on one line, or are one."""
    (x, y), *others = contour
    far = next(((u - x, v - y) for u, v in others if (u, v) != (x, y)), None)
    return far is None or all((u - x) * far[1] == (v - y) * far[0] for u, v in others)


def row_of(path: WholePath) -> Row:
    """The coordinates of a path in a row."""
    return list(chain.from_iterable(path))


def points_in(row: Sequence[Any]) -> list[Any]:
    """The points of coordinates in a row."""
    numbers = iter(row)
    return list(zip(numbers, numbers))


def directed(row: list[int], is_outline: bool) -> list[int] | None:
    """The coordinates of a ring in a row, in the direction that it is to have: outlines run counterclockwise. None
    where it visits a point twice, or has no area."""
    xs, ys = row[0::2], row[1::2]
    area = sum(map(mul, xs, ys[1:])) - sum(map(mul, ys, xs[1:])) + xs[-1] * ys[0] - ys[-1] * xs[0]
    if not area or len(set(zip(xs, ys))) < len(xs):
        return None
    if (area > 0) != is_outline:
        row[0::2], row[1::2] = xs[::-1], ys[::-1]
    return row


def directed_rings(rows: Sequence[Row]) -> list[Row]:
    """The coordinates of the rings of a polygon in their directions, the outline first; nothing where one of them
    visits a point twice, or has no area."""
    found = [directed(row, at == 0) for at, row in enumerate(rows)]
    return [row for row in found if row is not None] if None not in found else []


def box_of(contour: Sequence[Any]) -> tuple[Any, Any, Any, Any]:
    """The least x and y, and the greatest x and y."""
    xs, ys = [point[0] for point in contour], [point[1] for point in contour]
    return min(xs), min(ys), max(xs), max(ys)


def visits_once(contour: WholePath) -> bool:
    """Whether no point comes twice."""
    return len(set(contour)) == len(contour)


def extent_of(contours: Sequence[WholePath]) -> int:
    """How far the coordinates are from 0 at most."""
    numbers = list(chain.from_iterable(chain.from_iterable(contours)))
    return max(-min(numbers), max(numbers)) if numbers else 0


def surplus_of(contours: Sequence[WholePath]) -> int:
    """The least power of two that brings coordinates into the range where they are divided by it, and rounded."""
    return max(0, extent_of(contours).bit_length() - LIMIT.bit_length())


def room_of(contours: Sequence[WholePath]) -> int:
    """The greatest power of two by which coordinates in the range can be multiplied and stay in it; 0 for no points."""
    extent = extent_of(contours)
    return (LIMIT // extent).bit_length() - 1 if extent else 0


def shifted(contours: Sequence[WholePath], power: int) -> list[WholePath]:
    """Contours times a power of two; rounded where the power is below 0, halves upwards."""
    if power >= 0:
        return [[(x << power, y << power) for x, y in contour] for contour in contours]
    half = 1 << (-power - 1)
    return [[((x + half) >> -power, (y + half) >> -power) for x, y in contour] for contour in contours]


class Window(NamedTuple):
    """Where contours stand that were brought into the range: less a point, and divided by a power of two."""

    x: int = 0
    y: int = 0
    power: int = 0

    def back(self, contours: Sequence[WholePath]) -> list[WholePath]:
        """Contours in the window as they stand without it."""
        x, y, power = self
        return [[((across << power) + x, (up << power) + y) for across, up in contour] for contour in contours]


def in_range(contours: Sequence[WholePath]) -> tuple[list[WholePath], Window]:
    """Contours that the calls take, and the window in which they stand. They are divided, and rounded, only where
    their box is wider than the range."""
    if not surplus_of(contours):
        return list(contours), Window()
    points = list(chain.from_iterable(contours))
    left, low, right, high = box_of(points)
    surplus = ((max(right - left, high - low) + 1) // 2).bit_length() - LIMIT.bit_length()
    # (a bit more, since the ends are rounded)
    power = surplus + 1 if surplus > 0 else 0
    # (about the middle, and by whole units from a point: what has no smaller digits loses none)
    x, y = points[0]
    x += ((left + right) // 2 - x) >> power << power
    y += ((low + high) // 2 - y) >> power << power
    moved = [[(across - x, up - y) for across, up in contour] for contour in contours]
    return shifted(moved, -power), Window(x, y, power)
