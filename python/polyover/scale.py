"""Points of floats on a grid of whole numbers, and back."""

from __future__ import annotations

from array import array
from fractions import Fraction
from itertools import islice
from math import ceil
from operator import index
from typing import Any, Iterable, Sequence, TypeVar

from . import calls, small
from .axis import Axis
from .columns import row_of_points, whole_points
from .contour import Row, WholePath, WholePoint, points_in, row_of
from .errors import BadInput, BadType
from .flat import Flat, FlatFloats, FlatShapes, copied, parted
from .numbers import fraction_of, is_truth
from .reading import Lines, Polygons
from .shapes import Paths, Shapes
from .text import items_of

# what is given for a list of contours or of paths: such a list, or a geometry
Group = Any
# (floats have fewer: scales beyond take all memory)
MOST_DIGITS = 1000
S = TypeVar("S", bound="Scale")


def has_truth(point: Any) -> bool:
    """Whether a member of a point is a truth."""
    return isinstance(point, (list, tuple)) and any(map(is_truth, point))


class Scale:
    """Numbers taken as whole ones: each less the origin's, times the scale, and rounded."""

    def __init__(self, scale: Any, origin: Sequence[Any] = (0, 0)) -> None:
        self.scale = fraction_of(scale, "the scale")
        if self.scale <= 0:
            raise BadInput(f"the scale {scale} is not above 0")
        if isinstance(origin, calls.UNFIT):
            raise BadType(f"the origin is no {type(origin).__name__}, but a point of two numbers")
        if not hasattr(origin, "__len__") or len(origin) != 2:
            raise BadInput(f"the origin {origin!r} is no point of two numbers")
        self.origin = tuple(fraction_of(value, "the origin") for value in origin)
        across, up = self.origin
        axis = Axis(across, self.scale)
        self.axes = [axis, axis if up == across else Axis(up, self.scale)]

    def __repr__(self) -> str:
        scale, *origin = (value.numerator if value.denominator == 1 else value for value in (self.scale, *self.origin))
        given = f"{scale!r}, {tuple(origin)!r}" if any(origin) else repr(scale)
        return f"{type(self).__name__}({given})"

    def __eq__(self, other: object) -> bool:
        if not isinstance(other, Scale):
            return NotImplemented
        return (self.scale, self.origin) == (other.scale, other.origin)

    def __hash__(self) -> int:
        return hash((self.scale, self.origin))

    @classmethod
    def of_digits(cls: type[S], digits: int, origin: Sequence[Any] = (0, 0)) -> S:
        """Returns the scale with `digits` digits behind the decimal point, a whole number from -1000 to 1000."""
        try:
            if is_truth(digits):
                raise TypeError
            power = index(digits)
        except TypeError:
            raise BadInput(f"{digits!r} is no whole number of digits") from None
        if abs(power) > MOST_DIGITS:
            raise BadInput(f"{digits} digits: at most {MOST_DIGITS}, and from -{MOST_DIGITS} on")
        return cls(Fraction(10) ** power, origin)

    @property
    def lost(self) -> float:
        """How far from where it is a coordinate may be taken."""
        return float(1 / (2 * self.scale))

    def whole_point(self, point: Sequence[Any]) -> WholePoint:
        """The whole point of a point of floats."""
        try:
            x, y = point
            return self.axes[0].whole(x), self.axes[1].whole(y)
        except (TypeError, ValueError, OverflowError):
            told = f"{point!r} is no point of two finite numbers"
            raise (BadType if has_truth(point) else BadInput)(told) from None

    def whole_path(self, path: Sequence[Any]) -> WholePath:
        """A path with whole points."""
        found = whole_points(self.axes, path)
        if found is not None:
            return found
        across, up = (axis.whole for axis in self.axes)
        try:
            return [(across(x), up(y)) for x, y in path]
        except (TypeError, ValueError, OverflowError):
            # (a point that is none is named)
            return [self.whole_point(point) for point in path]

    def whole_row(self, points: Sequence[Any]) -> Row:
        """The whole coordinates of points, in a row."""
        found = row_of_points(self.axes, points)
        return row_of(self.whole_path(points)) if found is None else found

    def whole(self, paths: Group, name: str = "paths") -> list[WholePath]:
        """Paths with whole points; of polygons that were read, their contours for the fill rule nonzero. A fault names
        the place."""
        if isinstance(paths, Polygons):
            return [whole for whole, _ in paths.contours(self.whole_path)]
        if isinstance(paths, Lines):
            return list(map(points_in, paths.rows(self)))
        given = [path if isinstance(path, (list, tuple)) else list(items_of(path)) for path in paths]
        try:
            points = iter(self.whole_path([point for path in given for point in path]))
            return [list(islice(points, len(path))) for path in given]
        except BadInput:
            self._check_points(name, given)
            raise

    def _check_points(self, name: str, paths: Group) -> None:
        """Names the place of the first point that is none."""
        for number, path in enumerate(paths, 1):
            for at, point in enumerate(path, 1):
                try:
                    self.whole_point(point)
                except BadInput as fault:
                    raise type(fault)(f"{calls.place_of(name, number)}, point {at}: {fault}") from None

    def point(self, whole: WholePoint) -> tuple[float, float]:
        """The point of floats at a whole one."""
        return self.axes[0].number(whole[0]), self.axes[1].number(whole[1])

    def area(self, area: Any) -> int:
        """The smallest area of a contour, in squares of the floats' unit, as a whole number of squares at this scale:
        the nearest, of two equally near ones the smaller. So each contour of that area is kept."""
        if type(area) is int and area == 0:
            return 0
        exact = fraction_of(area, "the minimum area")
        squares = exact * self.scale**2
        if exact < 0 or squares > calls.AREA_LIMIT:
            raise BadInput(f"the minimum area {area} is not from 0 to {calls.AREA_LIMIT} squares at this scale")
        return ceil(squares - Fraction(1, 2))

    def paths(self, paths: Iterable[WholePath]) -> Any:
        """Paths with points of floats, in arrays where they are so."""
        if isinstance(paths, Flat):
            numbers = array("d", bytes(paths.numbers.nbytes))
            for at, axis in enumerate(self.axes):
                numbers[at::2] = array("d", axis.numbers(paths.numbers[at::2]))
            return FlatFloats(numbers, copied("Q", paths.counts))
        return Paths([[self.point(whole) for whole in path] for path in paths])

    def shapes(self, shapes: Iterable[Iterable[WholePath]]) -> Any:
        """Shapes with points of floats, in arrays where they are so."""
        if isinstance(shapes, FlatShapes):
            return FlatShapes(self.paths(shapes.contours), copied("Q", shapes.shape_ends))
        return Shapes([self.paths(shape) for shape in shapes])

    def answered(self, shapes: FlatShapes, arrays: bool) -> Any:
        """The shapes of an answer with points of floats, in arrays where these are wanted, and else in lists."""
        if arrays:
            return self.shapes(shapes)
        (across, up), flat = self.axes, shapes.contours
        if across is up:
            numbers = iter(across.numbers(flat.numbers))
            points = list(zip(numbers, numbers))
        else:
            points = list(zip(across.numbers(flat.numbers[0::2]), up.numbers(flat.numbers[1::2])))
        contours = parted(points, flat.counts.tolist())
        return Shapes(map(Paths, parted(contours, shapes.shape_ends.tolist())))

    def rows(self, rows: Iterable[Any]) -> Any:
        """Paths, or shapes, whose whole coordinates stand in rows, with points of floats."""
        listed = list(rows)
        if listed and listed[0] and isinstance(listed[0][0], list):
            return [self.rows(each) for each in listed]
        return [small.points_of(row, self.axes) for row in listed]

    def filled(self, edges: Any) -> Any:
        """Edges with points of floats."""
        return [(self.point(start), self.point(end), fills) for start, end, fills in edges]
