"""Points that are plain: lists, or tuples, of two numbers of Python's own. They are told many at a time."""

from __future__ import annotations

from itertools import chain
from math import isfinite
from typing import Any

from .contour import points_in

LISTS, NUMBERS = {list, tuple}, {float, int}


def plain_points(path: Any) -> list[Any] | None:
    """The points of a list, where each is a list of two numbers of Python's own, which are finite."""
    row = plain_numbers(path)
    return None if row is None else points_in(row)


def plain_numbers(path: Any) -> list[Any] | None:
    """The coordinates of such points in a row."""
    if type(path) not in LISTS or not set(map(type, path)) <= LISTS or set(map(len, path)) != {2}:
        return None
    numbers: list[Any] = list(chain.from_iterable(path))
    if not set(map(type, numbers)) <= NUMBERS:
        return None
    try:
        # (a sum with one that is not finite is none either)
        if not isfinite(sum(numbers)) and not all(map(isfinite, numbers)):
            return None
    except OverflowError:
        # (a whole number that is too large for a float)
        return None
    return numbers


def plain_rings(paths: Any) -> list[list[Any]] | None:
    """The coordinates of rings in rows, each as `plain_numbers` has them, without the first point again at the end; of
    at least three points."""
    if type(paths) not in LISTS:
        return None
    found = []
    for path in paths:
        row = plain_numbers(path)
        if row and len(row) > 2 and row[:2] == row[-2:]:
            del row[-2:]
        if row is None or len(row) < 6:
            return None
        found.append(row)
    return found
