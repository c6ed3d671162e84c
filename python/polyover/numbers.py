"""Numbers as exact ratios of whole ones."""

from __future__ import annotations

from fractions import Fraction
from math import lcm
from operator import index
from typing import Any, Iterable

from .errors import BadInput

# (NumPy's has another name by its version)
TRUTHS = ("bool", "bool_")


def is_of_truths(kind: Any) -> bool:
    """Whether a type is that of True and False, or NumPy's: Python takes these as numbers."""
    return kind.__name__ in TRUTHS


def is_truth(value: Any) -> bool:
    """Whether a value is of such a type."""
    return is_of_truths(type(value))


def ratio_of(value: Any) -> tuple[int, int]:
    """A finite number as a ratio of whole numbers, the second one above 0. Raises TypeError of a truth or a text."""
    kind: Any = type(value)
    if kind is not float and kind is not int and (is_of_truths(kind) or issubclass(kind, str)):
        raise TypeError
    if isinstance(value, (int, float)):
        return value.as_integer_ratio()
    if hasattr(value, "__index__"):
        return index(value), 1
    if hasattr(value, "as_integer_ratio"):
        top, bottom = value.as_integer_ratio()
        return int(top), int(bottom)
    exact = Fraction(value)
    return int(exact.numerator), int(exact.denominator)


def fraction_of(value: Any, what: str) -> Fraction:
    """A finite number as a fraction."""
    try:
        return Fraction(*ratio_of(value))
    except (TypeError, ValueError, OverflowError):
        raise BadInput(f"{what} {value!r} is no finite number") from None


def over_one_bottom(values: Iterable[Any]) -> tuple[list[int], int]:
    """Finite numbers as whole ones over one bottom, the smallest."""
    ratios = [ratio_of(value) for value in values]
    bottom = lcm(*{below for _, below in ratios})
    return [above * (bottom // below) for above, below in ratios], bottom


def is_finite(value: Any) -> bool:
    """Whether a value is a finite number, and neither a truth nor a text."""
    kind = type(value)
    if kind is int or kind is float:
        return kind is int or bool(value - value == 0)
    if not (hasattr(value, "as_integer_ratio") or hasattr(value, "__index__")):
        return False
    try:
        ratio_of(value)
    except (TypeError, ValueError, OverflowError):
        return False
    return True
