"""Many points at once, by columns of NumPy's, where it is installed: the same numbers as one by one."""

from __future__ import annotations

import sys
from array import array
from itertools import chain
from typing import Any, Sequence

# (how many points pay for columns, and for the import of NumPy too)
FEW, MANY = 64, 200_000
# (beyond it floats are whole numbers, and a float's own rounding may be more than half a unit)
EXACT = 2.0**50
# (of a difference and a product of floats, with room)
ERROR = 2.0**-50
LEAST = 1e-290


# (of two widths how far from 0 numbers may be, and how near to a half, for floats to tell the nearest whole one surely)
WIDTHS = ((4, 2.0**30 - 2, 0.5 - 2.0**-19), (8, 2.0**40, 0.5 - 2.0**-9))


def numpy_for(count: int) -> Any:
    """NumPy, where it is there and pays for `count` points."""
    if count < FEW or "numpy" not in sys.modules and count < MANY:
        return None
    try:
        import numpy  # pylint: disable=import-outside-toplevel
    except ImportError:
        return None
    return numpy


def floats_of(numpy: Any, points: Sequence[Any]) -> Any:
    """Points of two floats as an array of floats, if they are such."""
    if set(map(len, points)) != {2}:
        return None
    numbers = list(chain.from_iterable(points))
    if not set(map(type, numbers)) <= {float, numpy.float64, numpy.float32}:
        return None
    return numpy.frombuffer(array("d", numbers), numpy.float64).reshape(-1, 2)


def nearest_of(numpy: Any, axis: Any, values: Any) -> tuple[Any, Any]:
    """The whole numbers of a column, and which of them floats tell surely: none that is near a half or large. Zeros
    stand in the place of these."""
    start, scale = axis.floats
    with numpy.errstate(all="ignore"):
        found = (values - start) * scale
        nearest = numpy.rint(found)
        lost = (numpy.abs(values) + abs(start)) * scale * ERROR + LEAST
        is_sure = (numpy.abs(found) < EXACT) & (numpy.abs(found - nearest) + lost < 0.5)
        return numpy.where(is_sure, nearest, 0).astype(numpy.int64), is_sure


def whole_column(numpy: Any, axis: Any, values: Any, given: Sequence[Any]) -> list[int]:
    """The whole numbers of a column; of those that are near a half or large one by one, as they were given."""
    found, is_sure = nearest_of(numpy, axis, values)
    whole = found.tolist()
    for at in numpy.nonzero(~is_sure)[0].tolist():
        whole[at] = axis.whole(given[at])
    return whole  # type: ignore[no-any-return]


def whole_columns(axes: Sequence[Any], numbers: Sequence[float]) -> Any:
    """The whole coordinates of points in a row of NumPy's, where it pays, the axes are one, and floats tell all of them
    surely."""
    across, up = axes
    numpy = numpy_for(len(numbers) // 2)
    if numpy is None or across is not up or across.floats is None:
        return None
    try:
        found, is_sure = nearest_of(numpy, across, numpy.array(numbers, numpy.float64))
    except OverflowError:
        # (a whole number that is too large for a float)
        return None
    return found if is_sure.all() else None


def plain_row(points: Sequence[Any]) -> list[Any] | None:
    """The coordinates of points in a row, if they are points of two numbers of Python's own."""
    try:
        if set(map(len, points)) != {2}:
            return None
    except TypeError:
        return None
    numbers = list(chain.from_iterable(points))
    return numbers if set(map(type, numbers)) <= {float, int} else None


def row_of_points(axes: Sequence[Any], points: Sequence[Any]) -> list[int] | None:
    """The whole coordinates, in a row, of points of two numbers of Python's own."""
    numbers = plain_row(points)
    return None if numbers is None else row_of_numbers(axes, numbers)


def row_of_numbers(axes: Sequence[Any], numbers: list[Any]) -> list[int] | None:
    """The whole numbers of coordinates in a row, if all are numbers."""
    try:
        return whole_row(axes, numbers)
    except (ValueError, OverflowError):
        # (a number that is none: one by one it is found)
        return None


def whole_points(axes: Sequence[Any], points: Sequence[Any]) -> list[tuple[int, int]] | None:
    """The whole points of many points of numbers, where columns are of use."""
    if len(points) < FEW:
        return None
    found = row_of_points(axes, points)
    if found is not None:
        row = iter(found)
        return list(zip(row, row))
    try:
        numpy = numpy_for(len(points))
        if numpy is None or any(axis.floats is None for axis in axes):
            return None
        floats = floats_of(numpy, points)
        if floats is None:
            return None
        columns = [floats[:, at] for at in range(2)]
        xs, ys = (whole_column(numpy, axis, column, column) for axis, column in zip(axes, columns))
    except (ValueError, OverflowError):
        # (a number that is none: one by one it is found)
        return None
    return list(zip(xs, ys))


def whole_row(axes: Sequence[Any], numbers: Sequence[float]) -> list[int]:
    """The whole numbers of coordinates in a row. Raises ValueError or OverflowError where one is no number."""
    across, up = axes
    numpy = numpy_for(len(numbers) // 2)
    if numpy is None or across.floats is None or up.floats is None:
        if across is up:
            return across.column(numbers)  # type: ignore[no-any-return]
        xs, ys = across.column(numbers[0::2]), up.column(numbers[1::2])
    else:
        floats = numpy.array(numbers, numpy.float64)
        if across is up:
            return whole_column(numpy, across, floats, numbers)
        xs = whole_column(numpy, across, floats[0::2], numbers[0::2])
        ys = whole_column(numpy, up, floats[1::2], numbers[1::2])
    row = [0] * len(numbers)
    row[0::2], row[1::2] = xs, ys
    return row


class Columns:
    """Floats in an array that are written as whole numbers, of 32 or 64 bits, to a place in an array of words."""

    def __init__(self, floats: array[float], words: array[int], place: int) -> None:
        self.numpy: Any = sys.modules["numpy"]
        numpy = self.numpy
        self.multiply, self.nearest, self.subtract = numpy.multiply, numpy.rint, numpy.subtract
        whole = (numpy.frombuffer(words, kind, offset=8 * place) for kind in (numpy.int32, numpy.int64))
        self.rows = (numpy.frombuffer(floats, numpy.float64), *numpy.empty((3, len(floats))), *whole)
        # (of some counts the beginnings of the rows)
        self.begun: dict[int, Any] = {}

    def beginnings(self, count: int) -> Any:
        """The first numbers of each row."""
        if len(self.begun) > 255:
            self.begun.clear()
        found = self.begun[count] = tuple(row[:count] for row in self.rows)
        return found

    def write(self, axis: Any, count: int) -> int:
        """Writes that many floats as an axis takes them; how many bytes each has, or 0 where floats do not tell surely,
        and nothing is written."""
        scale = axis.scale
        if not scale or axis.start or not count:
            return 0
        given, found, near, lost, narrow, wide = self.begun.get(count) or self.beginnings(count)
        for size, far, sure in WIDTHS:
            # (the sum of squares is sooner told than the largest)
            if given.dot(given) * scale * scale < far * far or is_within(given, far / scale):
                self.multiply(given, scale, found)
                self.nearest(found, near)
                self.subtract(found, near, lost)
                if not is_within(lost, sure):
                    return 0
                (narrow if size == 4 else wide)[:] = near
                return size
        return 0


def is_within(row: Any, far: float) -> bool:
    """Whether all numbers of a row are less than that far from 0."""
    return bool(-far < row.item(row.argmin()) and row.item(row.argmax()) < far)
