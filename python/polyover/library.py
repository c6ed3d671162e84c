"""The library for C (include/polyover.h): where it is, and how it is asked."""

from __future__ import annotations

import os
from array import array
from ctypes import CDLL, c_ubyte, c_uint32
from functools import lru_cache
from itertools import chain
from pathlib import Path
from struct import error as StructError
from struct import pack
from typing import Any, Callable

from . import program
from .errors import BadInput, LibraryMissing
from .flat import Flat, row_of, whole_path
from .functions import FRAMED, FREES, FUNCTIONS
from .numbers import is_of_truths
from .statuses import OUT_OF_RANGE, check
from .structs import BYTES, COORDINATES, ITEM_SIZES, SIZES, Contours, Result
from .text import coordinate

VARIABLE = "POLYOVER_LIBRARY"
HELD = Path(__file__).resolve().with_name("libpolyover.so")
# (a wheel holds the library; a clone has it where scripts/build, or make -C c, leaves it)
BUILT = str(HELD if HELD.is_file() else HELD.parents[2] / "out" / HELD.name)
KEYS = os.fsencode(VARIABLE), os.fsencode(program.VARIABLE)
# (paths at which there is a library)
FOUND: set[str] = set()


class Held:
    """An answer of the library, where it is: its arrays are memoryviews, and its memory is freed once none is left."""

    def __init__(self, free: Callable[[Any], None]) -> None:
        self.free, self.result = free, Result()

    def __del__(self) -> None:
        self.free(self.result)

    def numbers(self, kind: str, place: int | None, count: int) -> memoryview:
        """That many numbers of a kind at a place."""
        if not count:
            return memoryview(array(kind))
        items: Any = (c_ubyte * (count * ITEM_SIZES[kind])).from_address(place or 0)
        # (what looks at these items keeps them, and they keep the answer)
        items.answer = self
        return memoryview(items).cast("B").cast(kind)

    @property
    def coordinates(self) -> memoryview:
        """The coordinates, x before y."""
        return self.numbers(COORDINATES, self.result.coordinates, self.result.coordinate_count)

    @property
    def contour_ends(self) -> memoryview:
        """How many points there are up to the end of each contour, or of each path."""
        return self.numbers(SIZES, self.result.contour_ends, self.result.contour_count)

    @property
    def shape_ends(self) -> memoryview:
        """How many contours there are up to the end of each shape."""
        return self.numbers(SIZES, self.result.shape_ends, self.result.shape_count)

    @property
    def links(self) -> memoryview:
        """Three numbers for each link."""
        return self.numbers(SIZES, self.result.links, 3 * self.result.link_count)

    @property
    def fills(self) -> memoryview:
        """The bits of the filled sides of each edge, or of each step."""
        return self.numbers(BYTES, self.result.fills, self.result.fill_count)


def coordinates_of(points: Any) -> list[Any]:
    """The coordinates of points, each of two members, in a row."""
    if not isinstance(points, (list, tuple)):
        points = list(points)
    numbers = list(chain.from_iterable(points))
    # (a point that has been gone over before has no members any more)
    return numbers if len(numbers) == 2 * len(points) else [number for x, y in points for number in (x, y)]


class Library:
    """A library that is loaded; `names` are those of its functions that are declared here."""

    def __init__(self, path: str) -> None:
        try:
            self.functions = CDLL(path)
        except OSError as fault:
            raise LibraryMissing(f"{path} can't be loaded: {fault}") from None
        self.names = {name for name in FUNCTIONS if hasattr(self.functions, name)}
        for name in self.names:
            function = getattr(self.functions, name)
            function.argtypes, function.restype = FUNCTIONS[name], None if name in FREES else c_uint32
        # arrays of small calls that are not at work, and whether such calls can be asked
        self.frames: list[Any] = []
        names = [f"{name}{width}" for name in FRAMED for width in ("", "_32")]
        self.has_frames = SIZES == "Q" and all(hasattr(self.functions, name) for name in names)

    def framed(self, width: str) -> list[Any]:
        """The functions of small calls at a width."""
        found = []
        for name, takes in FRAMED.items():
            function = self.functions[name + width]
            function.argtypes, function.restype = takes, c_uint32
            found.append(function)
        return found

    def numbers(self, given: list[Any]) -> Any:
        """An array of coordinates, which are whole numbers."""
        try:
            if any(map(is_of_truths, set(map(type, given)))):
                raise TypeError
            return array(COORDINATES, pack(f"{len(given)}q", *given))
        except (StructError, TypeError):
            # (of bad ones this names the first)
            return array(COORDINATES, map(coordinate, given))

    def contours(self, paths: Any) -> Contours:
        """Contours, or open paths, as the library takes them: arrays without a copy, where all is in one."""
        if isinstance(paths, Flat):
            passed: Contours = paths.passed or Contours(paths.numbers, paths.counts)
            paths.passed = None if passed.is_copied else passed
            return passed
        buffers = [None if isinstance(path, (list, tuple)) else whole_path(path) for path in paths]
        if any(found is not None for found in buffers):
            return self.joined(paths, buffers)
        numbers: list[Any] = []
        ends = []
        for path in paths:
            numbers += coordinates_of(path)
            ends.append(len(numbers) // 2)
        return Contours(self.numbers(numbers), array(SIZES, ends))

    def joined(self, paths: Any, buffers: list[memoryview | None]) -> Contours:
        """Arrays of points, of which each has a buffer, and lists of them, in one array; an array alone as it is."""
        if len(buffers) == 1 and buffers[0] is not None:
            return Contours(row_of(buffers[0]), array(SIZES, [len(buffers[0])]))
        numbers, ends = array(COORDINATES), array(SIZES)
        for path, found in zip(paths, buffers):
            if found is None:
                numbers.extend(self.numbers(coordinates_of(path)))
            elif found.nbytes:
                numbers.frombytes(found.cast("B"))
            ends.append(len(numbers) // 2)
        return Contours(numbers, ends)

    def check_range(self, contours: Contours) -> None:
        """That the coordinates are in the range: each call tests that itself."""
        if not self.functions.polyover_in_range(contours.coordinates or 0, contours.coordinate_count):
            raise BadInput(OUT_OF_RANGE)

    def call(self, name: str, *arguments: Any) -> int:
        """The status with which a function ends. (Of a struct ctypes hands over where it is.)"""
        return getattr(self.functions, name)(*arguments)  # type: ignore[no-any-return]

    def answer(self, name: str, *given: Any) -> Held:
        """What a function answers; or raises what its status stands for."""
        held = Held(self.functions.polyover_free)
        check(self.call(name, *given, held.result))
        return held


@lru_cache(maxsize=None)
def loaded(path: str) -> Library:
    """The library at a path."""
    return Library(path)


def is_plain() -> bool:
    """Whether the environment names neither a library nor a program. Its own dictionary, where there is one, tells that
    in a hundredth of the time."""
    held = getattr(os.environ, "_data", None)
    return isinstance(held, dict) and KEYS[0] not in held and KEYS[1] not in held


def library() -> Library | None:
    """The library that POLYOVER_LIBRARY names; or else, if POLYOVER_PROGRAM names no program, the one beside the
    module or in out/; or none where none is."""
    if not is_plain():
        named = os.environ.get(VARIABLE)
        if named:
            return loaded(named if os.path.isabs(named) else os.path.abspath(named))
        if os.environ.get(program.VARIABLE):
            return None
    if BUILT not in FOUND and os.path.isfile(BUILT):
        FOUND.add(BUILT)
    return loaded(BUILT) if BUILT in FOUND else None
