"""Whether contours wind round some point less than 0 times."""

from __future__ import annotations

from functools import partial
from typing import Any

from . import by_library
from .relations import relation_as_given, told_finest
from .text import RELATION_BITS, ROUNDS

INTERSECTS = "intersects"


def wind_below_0(contours: Any) -> bool:
    """Whether contours in the range wind round some point less than 0 times: as they are given, or, where the library
    can't tell that, arranged at the finest scale. (What they fill so has a point in common with itself, if any.)"""
    if by_library.can("relate_exact"):
        return bool(by_library.exact_bits(contours, contours, "negative") & RELATION_BITS[INTERSECTS])
    return bool(told_finest(partial(relation_as_given, INTERSECTS), contours, contours, "negative", ROUNDS))
