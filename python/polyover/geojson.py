"""Geometries as GeoJSON has them, and as `__geo_interface__` gives them: each feature's polygons or lines."""

from __future__ import annotations

from typing import Any, Iterable, Sequence

from .checks import interface_of, shown
from .errors import BadInput
from .parts import POINTS, Feature, Part, Path, Point
from .reader import DROPPED, Reader
from .shapes import ring
from .told import Told, counted

NULLS = counted("# [feature has|features have] no geometry")


def geometry_of(thing: object) -> dict[str, Any]:
    """What a thing is as GeoJSON: a dictionary, or whatever has `__geo_interface__`."""
    found = interface_of(thing)
    if not isinstance(found, dict) or "type" not in found:
        raise BadInput(f"{shown(found)} is no geometry: neither GeoJSON nor with __geo_interface__")
    return found


def features_in(found: dict[str, Any]) -> Sequence[Any]:
    """The features of a collection, or what is the only one."""
    if found["type"] != "FeatureCollection":
        return [found]
    if not isinstance(found.get("features"), (list, tuple)):
        raise BadInput(f"features: {shown(found.get('features'))} in the place of a list")
    return found["features"]  # type: ignore[no-any-return]


def features_of(
    thing: object, kinds: Sequence[str], *, skip_invalid: bool = False, told: Told | None = None
) -> list[Feature]:
    """The features of a geometry, a feature or a collection, with their polygons or their lines; faults name the place.

    Raises BadInput where it is none, or where no geometry is of these kinds but some are of others. With `skip_invalid`
    a ring of less than three points and a line of less than two are left out, and counted in `told`, as are geometries
    of other kinds, and what points have beyond x and y."""
    reader = Reader(kinds, skip_invalid, Told() if told is None else told)
    return list(reader.features((0, each) for each in features_in(geometry_of(thing))))


def told_features(thing: object, kinds: Sequence[str], skip_invalid: bool) -> list[Feature]:
    """The features, and what is to be said of them, by warnings; that some have no geometry too."""
    told = Told()
    features = features_of(thing, kinds, skip_invalid=skip_invalid, told=told)
    for each in features:
        if each.is_null:
            told.add(NULLS, each.place)
    told.say()
    return features


def parts_of(thing: object, kinds: Sequence[str], skip_invalid: bool = False) -> list[Part]:
    """The polygons, or the lines, of all features."""
    return [part for each in told_features(thing, kinds, skip_invalid) for part in each.parts]


def points_of(thing: object) -> list[Point]:
    """The points of all features of a geometry, by x and y alone."""
    told, points = Told(), []
    for part in parts_of(thing, POINTS):
        (point,) = part.paths[0]
        if len(point) > 2:
            told.add(DROPPED, part.place)
        points.append(point[:2])
    told.say()
    return points


def is_geometry(thing: object) -> bool:
    """Whether a thing is given as a geometry, and not as a list of paths."""
    # (asked of the type first: an instance would make its dictionary)
    return isinstance(thing, dict) or hasattr(type(thing), "__geo_interface__") or hasattr(thing, "__geo_interface__")


# ---- answers


def polygons(shapes: Iterable[list[Path]]) -> dict[str, Any]:
    """A geometry of shapes: the rings of each."""
    return {"type": "MultiPolygon", "coordinates": [[ring(contour, list) for contour in shape] for shape in shapes]}


def lines(paths: Iterable[Path]) -> dict[str, Any]:
    """A geometry of open paths."""
    return {"type": "MultiLineString", "coordinates": [list(path) for path in paths]}


def collection(features: Iterable[dict[str, Any]], **members: Any) -> dict[str, Any]:
    """A collection of features, with members of its own."""
    return {"type": "FeatureCollection", **members, "features": list(features)}
