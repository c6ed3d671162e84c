"""Numbers of one axis as whole ones, and back."""

from __future__ import annotations

from fractions import Fraction
from operator import sub
from typing import Any, Callable, Sequence

from .columns import ERROR, EXACT, LEAST
from .numbers import ratio_of

# (ties go to the even number)
NEAREST: Callable[[float], int] = round


class Axis:
    """Numbers taken as whole ones: each less a start, times a scale, and rounded; by whole numbers alone, exactly."""

    def __init__(self, start: Fraction, scale: Fraction) -> None:
        (top, bottom), (up, down) = start.as_integer_ratio(), scale.as_integer_ratio()
        self.times, self.less, self.over = bottom * up, top * up, bottom * down
        # (for floats, where these are floats)
        exact = float_of(start), float_of(scale)
        self.floats = None if None in exact else exact
        self.start, self.scale = (0.0, 0.0) if None in exact else (float(start), float(scale))
        self.error, self.far = self.scale * ERROR, abs(self.start)
        self.least_error = self.far * self.error + LEAST

    def whole(self, value: Any) -> int:
        """The whole number nearest to a number; of two equally near ones the even one."""
        if type(value) is float and self.scale:
            found = (value - self.start) * self.scale
            # (as floats have it, unless it is near a half or large)
            if -EXACT < found < EXACT:
                near = round(found)
                if abs(found - near) + abs(value) * self.error + self.least_error < 0.5:
                    return near
        top, bottom = ratio_of(value)
        # (of the number and a half, which is a whole number just where two are equally near)
        distance = bottom * self.over
        nearest, rest = divmod(2 * (top * self.times - bottom * self.less) + distance, 2 * distance)
        return nearest - 1 if rest == 0 and nearest % 2 else nearest

    def column(self, values: Sequence[float]) -> list[int]:
        """The whole numbers of some floats. Raises ValueError or OverflowError where one is no number."""
        if not self.scale or not values:
            return list(map(self.whole, values))
        start, scale = self.start, self.scale
        found = [(value - start) * scale for value in values] if start else [value * scale for value in values]
        # (as floats have them, unless one is near a half or large)
        size = largest(found)
        if size < EXACT:
            near = list(map(NEAREST, found))
            lost = list(map(sub, found, near))
            # (a value times the scale is at most as large as what is found and the start times the scale)
            sure = 0.5 - size * ERROR - 2 * self.least_error
            if largest(lost) < sure:
                return near
            whole = self.whole
            return [kept if -sure < off < sure else whole(value) for kept, off, value in zip(near, lost, values)]
        return list(map(self.whole, values))

    def number(self, whole: int) -> float:
        """The float nearest to the number that a whole one stands for."""
        return (whole * self.over + self.less) / self.times

    def numbers(self, whole: Sequence[int]) -> list[float]:
        """The floats nearest to the numbers that some whole ones stand for."""
        times, over, less = self.times, self.over, self.less
        if over == 1 and not less:
            return [value / times for value in whole]
        return [(value * over + less) / times for value in whole]


def largest(values: Sequence[float]) -> float:
    """How far numbers are from 0 at most."""
    return max(max(values), -min(values))


def float_of(value: Fraction) -> float | None:
    """A fraction as a float, if it is one."""
    try:
        return float(value) if Fraction(float(value)) == value else None
    except OverflowError:
        return None
