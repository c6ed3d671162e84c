"""Values of GeoJSON that stand where they should; where one does not, a fault names the place."""

from __future__ import annotations

from typing import Any, Sequence

from .errors import BadInput
from .numbers import is_finite
from .parts import Place, Point


def shown(value: object) -> str:
    """A value in a message, not too long."""
    text = "null" if value is None else repr(value)
    return text if len(text) <= 60 else f"{text[:57]}.."


def interface_of(thing: object) -> Any:
    """What a thing is as GeoJSON has it."""
    return getattr(thing, "__geo_interface__", thing)


def member(place: Place, found: Any, name: str) -> Any:
    """A member of an object, which must be there."""
    if name not in found:
        raise BadInput(f"{place}: no member {name}")
    return found[name]


def listed(place: Place, found: object, name: str = "") -> Sequence[Any]:
    """A list, which must be one."""
    if not isinstance(found, (list, tuple)):
        start = f"{place}: {name}" if name else str(place)
        raise BadInput(f"{start}: {shown(found)} in the place of a list")
    return found


def kind_of(place: Place, geometry: object) -> str:
    """The type of a geometry."""
    if not isinstance(geometry, dict):
        raise BadInput(f"{place}: {shown(geometry)} is no geometry")
    kind = member(place, geometry, "type")
    if not isinstance(kind, str):
        raise BadInput(f"{place}: type: {shown(kind)} is no text")
    return kind


def checked_point(place: Place, number: int, point: object) -> Point:
    """A point of two finite numbers, or more."""
    if not isinstance(point, (list, tuple)) or len(point) < 2 or not all(map(is_finite, point)):
        raise BadInput(f"{place}, point {number}: {shown(point)} is no point of two finite numbers")
    return point


def check_nested(place: Place, coordinates: object, depth: int) -> None:
    """That coordinates that are passed over are points in as many lists; an empty point has none."""
    if depth == 0:
        if not isinstance(coordinates, (list, tuple)) or coordinates:
            checked_point(place, 1, coordinates)
        return
    for each in listed(place, coordinates, "coordinates"):
        check_nested(place, each, depth - 1)
