"""Members that a geometry of GeoJSON has beside its coordinates: geometries of answers are made anew, without these."""

from __future__ import annotations

from functools import lru_cache
from typing import Any

from .told import Told, What

PARTS = {"GeometryCollection": "geometries"}
COORDINATES = "coordinates"


@lru_cache(maxsize=64)
def left_out(name: str) -> What:
    """That a member is left out, of one geometry, and of more."""
    return f"the member {name!r} of 1 geometry is left out", f"the member {name!r} of # geometries is left out"


def tell_left_out(told: Told, place: object, geometry: dict[str, Any]) -> None:
    """Counts the members that a geometry at a place has beside its type and its parts."""
    own = "type", PARTS.get(geometry["type"], COORDINATES)
    for name in geometry:
        if name not in own:
            told.add(left_out(name), place)
