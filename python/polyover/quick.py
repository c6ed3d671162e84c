"""Geometries of polygons whose rings are simple, taken without a reading of features: those of shapely by their bytes
(WKB), and plain ones of GeoJSON. All others are read with their places, which warnings and faults name."""

from __future__ import annotations

import sys
from array import array
from ctypes import PyDLL, addressof, c_byte, c_int, c_size_t, c_void_p, string_at
from functools import lru_cache
from itertools import chain
from operator import attrgetter
from struct import Struct, unpack_from
from typing import Any, Callable, Sequence

from . import calls
from .columns import whole_row
from .contour import directed
from .flat import Flat
from .plain import LISTS, NUMBERS, plain_points
from .windings import wind_below_0

LITTLE = sys.byteorder == "little"
POLYGON, MULTIPOLYGON = 3, 6
# (the head of a polygon of one ring)
ONE_RING = Struct("<BIII")
# (of each ring the coordinates in a row, without the first point again at the end)
Polygon = list[Sequence[float]]
Writer = Callable[[Any], bytes]
# writers of shapely 1.8 that are not at work
WRITERS: list[Writer] = []


@lru_cache(maxsize=256)
def is_of_shapely(kind: Any) -> bool:
    """Whether a type is one of shapely's polygons."""
    return kind.__module__.startswith("shapely.") and kind.__name__ in ("Polygon", "MultiPolygon")


@lru_cache(maxsize=256)
def is_polygon(kind: Any) -> bool:
    """Whether a type is that of shapely's polygons."""
    return is_of_shapely(kind) and kind.__name__ == "Polygon"


def new_writer() -> Writer:
    """What gives the bytes of a geometry of shapely's: a writer of version 1.8, and else its property."""
    geos: Any = sys.modules.get("shapely.geos")
    if hasattr(geos, "WKBWriter"):
        return writer_of(geos)
    return attrgetter("wkb")


def writer_of(geos: Any) -> Writer:
    """A writer of version 1.8 that asks GEOS itself: shapely makes objects for each call, which take as long."""
    local, made, size = geos.lgeos, geos.WKBWriter(geos.lgeos), c_size_t()
    write, free = local._lgeos["GEOSWKBWriter_write_r"], local._lgeos["GEOSFree_r"]
    write.argtypes, write.restype = (c_void_p,) * 4, c_void_p
    free.argtypes, free.restype = (c_void_p,) * 2, None
    writer, place = made._writer, addressof(size)

    def written(thing: Any) -> bytes:
        # (the handle is one of this thread)
        handle, asked = local.geos_handle, thing._geom
        found = write(handle, writer, asked, place) if asked else None
        if not found:
            return made.write(thing)  # type: ignore[no-any-return]
        data = string_at(found, size.value)
        free(handle, found)
        return data

    return written


def bytes_of(thing: Any) -> bytes:
    """The bytes of a geometry of shapely's. (Its version 1.8 makes a writer each time, which takes longer than it
    writes; here each is at work for one thread at a time.)"""
    try:
        write = WRITERS.pop()
    except IndexError:
        write = new_writer()
    found = write(thing)
    WRITERS.append(write)
    return found


# ---- rings of shapely 1.8, by GEOS itself

# what writes the coordinates of two rings, once it is looked for
COPIERS: list[Callable[[Any, Any, int, int], tuple[int, int]]] = []
NONE = 0, 0


def no_copier(*_: Any) -> tuple[int, int]:
    """Writes nothing: there is no shapely 1.8, or its GEOS is older than 3.10."""
    return NONE


def new_copier() -> Callable[[Any, Any, int, int], tuple[int, int]]:
    """What writes the coordinates of the rings of two polygons of shapely 1.8 to an address."""
    geos: Any = sys.modules.get("shapely.geos")
    local: Any = getattr(geos, "lgeos", None)
    loaded: Any = getattr(local, "_lgeos", None)
    if not hasattr(loaded, "GEOSCoordSeq_copyToBuffer_r"):
        return no_copier
    # (calls that are over at once do not let other threads run)
    held = PyDLL(loaded._name, handle=loaded._handle)

    def function(name: str, answers: Any, *more: Any) -> Any:
        found = held[f"{name}_r"]
        found.argtypes, found.restype = (c_void_p, c_void_p, *more), answers
        return found

    outline, sequence = function("GEOSGetExteriorRing", c_void_p), function("GEOSGeom_getCoordSeq", c_void_p)
    count, holes = function("GEOSGetNumCoordinates", c_int), function("GEOSGetNumInteriorRings", c_int)
    is_high, copy = function("GEOSHasZ", c_byte), function("GEOSCoordSeq_copyToBuffer", c_int, c_void_p, c_int, c_int)

    def copied(one: Any, other: Any, place: int, room: int) -> tuple[int, int]:
        # (the handle is one of this thread)
        handle, first, second = local.geos_handle, one._geom, other._geom
        points, more = first and count(handle, first), second and count(handle, second)
        # (a ring has four points at least, with the first one again)
        if not (points and more and points + more <= room):
            return NONE
        if holes(handle, first) or is_high(handle, first) or holes(handle, second) or is_high(handle, second):
            return NONE
        behind = place + 16 * (points - 1)
        if not copy(handle, sequence(handle, outline(handle, first)), place, 0, 0):
            return NONE
        if not copy(handle, sequence(handle, outline(handle, second)), behind, 0, 0):
            return NONE
        return points - 1, more - 1

    return copied


def rings_into(one: Any, other: Any, place: int, room: int) -> tuple[int, int]:
    """Writes the coordinates of two polygons of one ring of shapely 1.8, x before y, to an address, where there is room
    for some points; how many points each has without the first one again at the end, or 0 where they are not taken."""
    first: Any = type(one)
    second: Any = type(other)
    if not is_polygon(first) or not is_polygon(second):
        return NONE
    if not COPIERS:
        COPIERS.append(new_copier())
    return COPIERS[0](one, other, place, room)


# ---- rings


def open_ring(numbers: Sequence[float]) -> Sequence[float] | None:
    """The coordinates of a ring, which are in a row; none where it is no ring."""
    if len(numbers) < 8 or numbers[0] != numbers[-2] or numbers[1] != numbers[-1]:
        return None
    return numbers[:-2]


@lru_cache(maxsize=256)
def ring_format(count: int) -> Struct:
    """A polygon of one ring of that many points, behind its head."""
    return Struct(f"<{2 * count}d")


def ring_of(thing: Any) -> Sequence[float] | None:
    """The coordinates of a polygon of one ring, of shapely or GeoJSON, in a row; none of other things."""
    kind: Any = type(thing)
    if kind is dict:
        return plain_ring(thing)
    if not is_of_shapely(kind):
        return None
    data = bytes_of(thing)
    if len(data) < ONE_RING.size:
        return None
    order, form, rings, count = ONE_RING.unpack_from(data)
    if (order, form, rings) != (1, POLYGON, 1):
        return None
    return open_ring(ring_format(count).unpack_from(data, ONE_RING.size))


def plain_ring(geometry: dict[str, Any]) -> Sequence[float] | None:
    """The coordinates of a polygon of one ring of GeoJSON in a row, of lists of two numbers of Python's own."""
    rings: Any = geometry.get("coordinates")
    if geometry.get("type") != "Polygon" or type(rings) not in LISTS or len(rings) != 1:
        return None
    (ring,) = rings
    if type(ring) not in LISTS or not set(map(type, ring)) <= LISTS or set(map(len, ring)) != {2}:
        return None
    numbers = list(chain.from_iterable(ring))
    return open_ring(numbers) if set(map(type, numbers)) <= NUMBERS else None


def polygon_in_bytes(data: bytes, at: int) -> tuple[Polygon | None, int]:
    """The rings of a polygon that begins at a place, and where it ends; none where there is no such polygon."""
    order, kind, count = unpack_from("<BII", data, at)
    if order != 1 or kind != POLYGON:
        return None, at
    rings: Polygon = []
    at += 9
    for _ in range(count):
        end = at + 4 + 16 * int(unpack_from("<I", data, at)[0])
        numbers = array("d")
        numbers.frombytes(data[at + 4 : end])
        ring = open_ring(numbers)
        if ring is None:
            return None, at
        rings.append(ring)
        at = end
    return rings, at


def polygons_in_bytes(data: bytes) -> list[Polygon] | None:
    """The polygons of well-known binary of two coordinates a point."""
    order, kind, count = unpack_from("<BII", data)
    if not LITTLE or order != 1 or kind not in (POLYGON, MULTIPOLYGON):
        return None
    found: list[Polygon] = []
    at, count = (9, count) if kind == MULTIPOLYGON else (0, 1)
    for _ in range(count):
        rings, at = polygon_in_bytes(data, at)
        if rings is None:
            return None
        found.append(rings)
    return found


def plain_polygon(coordinates: Any) -> Polygon | None:
    """The rings of a polygon of GeoJSON."""
    rings: Polygon = []
    for each in coordinates if isinstance(coordinates, (list, tuple)) else [None]:
        points = plain_points(each)
        if points is None or len(points) < 4 or points[0] != points[-1]:
            return None
        rings.append(list(chain.from_iterable(points[:-1])))
    return rings


def polygons_of(thing: Any) -> list[Polygon] | None:
    """The polygons of a geometry, if it is one of those that are taken here."""
    kind: Any = type(thing)
    if is_of_shapely(kind):
        return polygons_in_bytes(bytes_of(thing))
    if not isinstance(thing, dict) or not isinstance(thing.get("coordinates"), (list, tuple)):
        return None
    if thing.get("type") == "Polygon":
        found = [plain_polygon(thing["coordinates"])]
    elif thing.get("type") == "MultiPolygon":
        found = [plain_polygon(each) for each in thing["coordinates"]]
    else:
        return None
    polygons = [rings for rings in found if rings is not None]
    return polygons if len(polygons) == len(found) else None


# ---- contours


def contours_of(polygons: Sequence[Polygon], axes: Sequence[Any]) -> Flat | None:
    """The contours of polygons with whole points, as `nonzero` and `positive` take them. None where rings meet
    themselves or holes are not inside, and of several polygons with holes."""
    if len(polygons) > 1 and any(len(rings) > 1 for rings in polygons):
        return None
    numbers, ends = array("q"), array("Q")
    for rings in polygons:
        for at, ring in enumerate(rings):
            row = directed(whole_row(axes, ring), at == 0)
            if row is None:
                return None
            numbers.extend(row)
            ends.append(len(numbers) // 2)
    contours = Flat.of_arrays(numbers, ends)
    if not calls.asked("is_resolved").is_resolved(contours):
        return None
    # (of holes that overlap, or are not inside the outline)
    is_bad = polygons and len(polygons[0]) > 1 and wind_below_0(contours)
    return None if is_bad else contours


def region(thing: Any, axes: Sequence[Any], is_one: bool) -> Flat | None:
    """The contours of a geometry with whole points, if it is taken here, and, where that is asked for, has one polygon
    at most."""
    polygons = polygons_of(thing)
    if polygons is None or is_one and len(polygons) > 1:
        return None
    try:
        return contours_of(polygons, axes)
    except (ValueError, OverflowError):
        # (a number that is none, or out of range: the reading of features names its place)
        return None
