"""Contours, paths and shapes in arrays, which the library takes and gives without a copy."""

from __future__ import annotations

from array import array
from ctypes import addressof, c_char
from itertools import accumulate, chain, islice
from struct import pack
from typing import Any, Iterable, Iterator, Sequence

from .errors import BadInput
from .shapes import Paths, Shapes, paths_in_bytes, shapes_in_bytes
from .text import coordinate

WHOLE, FLOATS, COUNTS = ("q", "l"), ("d",), ("Q", "L", "N", "q", "l", "n")


def is_masked(thing: Any) -> bool:
    """Whether an array of NumPy's hides some of its numbers, which its buffer shows."""
    mask = getattr(thing, "mask", None)
    return hasattr(mask, "any") and bool(mask.any())  # type: ignore[union-attr]


def buffer_of(thing: Any) -> memoryview | None:
    """The buffer of a thing that has one, without a gap; none of lists, masked arrays and others."""
    if isinstance(thing, (list, tuple)) or is_masked(thing):
        return None
    try:
        found = memoryview(thing)
    except (TypeError, ValueError, BufferError):
        return None
    return found if found.c_contiguous else None


def whole_path(thing: Any) -> memoryview | None:
    """The buffer of an array of points: two int64 in a row, C-contiguous; none of other things."""
    found = buffer_of(thing)
    if found is None or found.ndim != 2 or found.format not in WHOLE or found.itemsize != 8:
        return None
    return found if (found.shape or ())[1] == 2 else None


def row_of(points: memoryview) -> memoryview:
    """An array of points as one row."""
    return points.cast("B").cast("q") if points.nbytes else memoryview(array("q"))


def checked_buffer(what: str, thing: Any, formats: tuple[str, ...]) -> memoryview:
    """The buffer of an array of numbers of 64 bits, as one row: of counts, or of points, two numbers each."""
    if is_masked(thing):
        raise BadInput(f"{what}: some numbers are masked")
    found = buffer_of(thing)
    if found is None or found.format not in formats or found.itemsize != 8:
        raise BadInput(f"{what}: no array of {'float64' if formats == FLOATS else 'int64'}, C-contiguous")
    shape = found.shape or ()
    if len(shape) != 1 and (formats is COUNTS or len(shape) != 2 or shape[1] != 2):
        of_points = "" if formats is COUNTS else " or (n, 2)"
        raise BadInput(f"{what}: an array of shape {shape} in the place of (n,){of_points}")
    if not found.nbytes:
        # (a buffer without an item can't be cast)
        return memoryview(array(formats[0]))
    return found if found.ndim == 1 else found.cast("B").cast(formats[0])


def address_of(items: Any) -> tuple[int, Any]:
    """Where the numbers of an array or a buffer are, and what has to stay as long."""
    whole = items.obj if isinstance(items, memoryview) and items.c_contiguous else items
    if isinstance(whole, array) and len(whole) == len(items) and whole.itemsize == items.itemsize:
        return whole.buffer_info()[0], items
    if not len(items):
        return 0, items
    if isinstance(items, bytearray) or not items.readonly:
        return addressof(c_char.from_buffer(items)), items
    found = getattr(items.obj, "__array_interface__", None)
    # (of a part the array tells where the whole is)
    if found and memoryview(items.obj).nbytes == items.nbytes:
        return int(found["data"][0]), items
    kept = bytearray(items.cast("B"))
    return addressof(c_char.from_buffer(kept)), kept


def parted(items: list[Any], ends: Sequence[int]) -> list[Any]:
    """The parts of a list with these ends."""
    return [items[start:end] for start, end in zip([0, *ends[:-1]], ends)]


def rows(buffer: memoryview, kind: str) -> memoryview:
    """A row of coordinates of a kind as points."""
    return buffer.cast("B").cast(kind, (len(buffer) // 2, 2)) if len(buffer) else buffer


def copied(kind: str, numbers: memoryview) -> array[Any]:
    """Numbers of 64 bits in an array of Python's own."""
    found = array(kind)
    found.frombytes(numbers.tobytes())
    return found


class Flat:
    """Contours or open paths in two arrays of 64 bits: the points, two coordinates in a row, and how many points there
    are up to the end of each contour. The calls take it in the place of lists; they read it without a copy.

    `coordinates` and `ends` are memoryviews, which `numpy.asarray` takes without a copy; going over it gives
    lists. A copy, and what was pickled, has arrays of its own. Raises BadInput where the arrays are of another kind,
    or the ends do not rise to the number of points."""

    # (what the coordinates may be)
    formats: tuple[str, ...] = WHOLE
    # (what the library is passed, once it has been)
    passed: Any = None

    def __init__(self, coordinates: Any, ends: Any) -> None:
        self.numbers = checked_buffer("coordinates", coordinates, self.formats)
        whole_ends = array("q", map(coordinate, ends)) if isinstance(ends, (list, tuple)) else ends
        self.counts = checked_buffer("ends", whole_ends, COUNTS)
        self.check_ends("ends")

    def check_ends(self, place: str) -> None:
        """That the ends rise to the number of points. (The arrays may be changed later.)"""
        counts = [0, *self.counts.tolist()]
        if counts != sorted(counts) or len(self.numbers) != 2 * counts[-1]:
            raise BadInput(f"{place}: they do not rise from 0 to the number of points")

    @classmethod
    def answered(cls, numbers: memoryview, counts: memoryview) -> Flat:
        """The contours, or paths, of an answer of the library, whose ends are not tested."""
        made = cls.__new__(cls)
        made.numbers, made.counts = numbers, counts
        return made

    @classmethod
    def of_arrays(cls, numbers: array[Any], ends: array[Any]) -> Flat:
        """Contours in arrays of Python's own, whose ends are not tested."""
        return cls.answered(memoryview(numbers), memoryview(ends))

    @property
    def coordinates(self) -> memoryview:
        """The points, two coordinates in a row."""
        return rows(self.numbers, self.formats[0])

    @property
    def ends(self) -> memoryview:
        """How many points there are up to the end of each contour."""
        return self.counts

    def __reduce__(self) -> tuple[Any, ...]:
        return type(self), (copied(self.formats[0], self.numbers), copied("Q", self.counts))

    def __len__(self) -> int:
        return len(self.counts)

    def __iter__(self) -> Iterator[list[tuple[Any, Any]]]:
        points = list(zip(self.numbers[0::2], self.numbers[1::2]))
        return (points[start:end] for start, end in zip([0, *self.counts[:-1]], self.counts))

    @property
    def __geo_interface__(self) -> dict[str, Any]:
        return Paths(self).__geo_interface__

    @property
    def wkb(self) -> bytes:
        """The paths as well-known binary, a MultiLineString, with coordinates as floats."""
        return paths_in_bytes(self)


def flat_rows(rows: Sequence[Sequence[int]]) -> Flat:
    """Contours, or paths, whose coordinates stand in rows, in arrays."""
    numbers = list(chain.from_iterable(rows))
    ends = [end // 2 for end in accumulate(map(len, rows))]
    return Flat.of_arrays(array("q", pack(f"{len(numbers)}q", *numbers)), array("Q", ends))


class FlatFloats(Flat):
    """Contours or open paths of floats in such arrays: the calls of `Scaled` give it, and take it in the place of
    lists."""

    formats = FLOATS


class FlatShapes:
    """Shapes in arrays: their contours, as `Flat`, and how many contours there are up to the end of each shape.

    Raises BadInput where the ends are no array of counts, or do not rise to the number of contours."""

    def __init__(self, contours: Flat, shape_ends: Any) -> None:
        self.contours, self.shape_ends = contours, checked_buffer("shape ends", shape_ends, COUNTS)
        counts = [0, *self.shape_ends.tolist()]
        if counts != sorted(counts) or counts[-1] != len(contours):
            raise BadInput("shape ends: they do not rise from 0 to the number of contours")

    @classmethod
    def answered(cls, contours: Flat, shape_ends: memoryview) -> FlatShapes:
        """The shapes of an answer of the library."""
        made = cls.__new__(cls)
        made.contours, made.shape_ends = contours, shape_ends
        return made

    @classmethod
    def of(cls, shapes: Iterable[list[Any]]) -> FlatShapes:
        """Shapes of lists in arrays."""
        numbers, ends, shape_ends = array("q"), array("Q"), array("Q")
        for shape in shapes:
            for contour in shape:
                numbers.extend(value for point in contour for value in point)
                ends.append(len(numbers) // 2)
            shape_ends.append(len(ends))
        return cls(Flat(numbers, ends), shape_ends)

    def __reduce__(self) -> tuple[Any, ...]:
        return type(self), (self.contours, copied("Q", self.shape_ends))

    def __len__(self) -> int:
        return len(self.shape_ends)

    def __iter__(self) -> Iterator[list[list[tuple[Any, Any]]]]:
        contours, start = iter(self.contours), 0
        for end in self.shape_ends:
            yield list(islice(contours, end - start))
            start = end

    @property
    def __geo_interface__(self) -> dict[str, Any]:
        return Shapes(self).__geo_interface__

    @property
    def wkb(self) -> bytes:
        """The shapes as well-known binary, a MultiPolygon, with coordinates as floats."""
        return shapes_in_bytes(self)
