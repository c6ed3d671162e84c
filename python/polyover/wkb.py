"""Geometries as bytes (WKB), also with the number of their system (EWKB), and as lines of their hexadecimal digits."""

from __future__ import annotations

from math import isnan
from struct import calcsize, pack, unpack_from
from typing import Any

from .errors import BadInput
from .parts import NESTED
from .shapes import points_in_bytes
from .wkt import has_height

KINDS = ("Point", "LineString", "Polygon", "MultiPoint", "MultiLineString", "MultiPolygon", "GeometryCollection")
HEIGHT, MEASURE, SYSTEM = 0x80000000, 0x40000000, 0x20000000
# by how many thousands the numbers of kinds with heights, and with measures, are larger
HEIGHTS, MEASURES = (1, 3), (2, 3)


class Bytes:
    """The bytes of a geometry, which are taken one behind the other."""

    def __init__(self, data: bytes) -> None:
        self.data, self.at, self.order, self.system = data, 0, "<", 0

    def take(self, words: str) -> tuple[Any, ...]:
        """The next numbers."""
        size = calcsize(f"{self.order}{words}")
        if self.at + size > len(self.data):
            raise BadInput(f"no WKB: it ends after {len(self.data)} bytes")
        self.at += size
        return unpack_from(f"{self.order}{words}", self.data, self.at - size)

    def count(self, size: int) -> int:
        """How many things follow, each of which takes some bytes at least."""
        (count,) = self.take("I")
        if count * size > len(self.data) - self.at:
            raise BadInput(f"no WKB: it ends after {len(self.data)} bytes")
        return int(count)

    def head(self) -> tuple[str, int]:
        """The kind of a geometry, and how many numbers a point has."""
        (order,) = self.take("B")
        if order > 1:
            raise BadInput(f"no WKB: {order} in the place of an order of bytes")
        self.order = "<" if order else ">"
        (code,) = self.take("I")
        thousands, number = divmod(code & 0xFFFF, 1000)
        if code & MEASURE or thousands in MEASURES:
            raise BadInput("measures (M) are not taken")
        if code & SYSTEM:
            before, (self.system,) = self.system, self.take("I")
            if before not in (0, self.system):
                raise BadInput(f"a part has another system, SRID {self.system}, than SRID {before} before it")
        if not 1 <= number <= len(KINDS) or thousands > 3 or code & 0x1FFF0000:
            raise BadInput(f"no WKB: {code} in the place of a kind of geometry")
        return KINDS[number - 1], 3 if code & HEIGHT or thousands in HEIGHTS else 2

    def points(self, size: int) -> list[Any]:
        """Points of as many numbers each."""
        count = self.count(8 * size)
        numbers = self.take(f"{count * size}d")
        return [list(numbers[at : at + size]) for at in range(0, len(numbers), size)]

    def geometry(self, level: int = 0) -> dict[str, Any]:
        """A geometry, as GeoJSON has it."""
        kind, size = self.head()
        if kind == "Point":
            point = list(self.take(f"{size}d"))
            return {"type": kind, "coordinates": [] if all(map(isnan, point)) else point}
        if kind == "LineString":
            return {"type": kind, "coordinates": self.points(size)}
        if kind == "Polygon":
            return {"type": kind, "coordinates": [self.points(size) for _ in range(self.count(4))]}
        if level >= NESTED:
            raise BadInput(f"more than {NESTED} collections in one another")
        parts = [self.geometry(level + 1) for _ in range(self.count(9))]
        if kind == "GeometryCollection":
            return {"type": kind, "geometries": parts}
        other = next((part["type"] for part in parts if part["type"] != kind.removeprefix("Multi")), None)
        if other:
            raise BadInput(f"no WKB: a {other} in a {kind}")
        return {"type": kind, "coordinates": [part["coordinates"] for part in parts]}


def geometry_in(data: bytes) -> tuple[int, dict[str, Any]]:
    """The number of the system of a geometry, or 0, and the geometry."""
    found = Bytes(data)
    geometry = found.geometry()
    if found.at < len(data):
        raise BadInput(f"no WKB: {len(data) - found.at} bytes behind the geometry")
    return found.system, geometry


def bytes_in(line: str) -> bytes:
    """The bytes that a line of hexadecimal digits has."""
    try:
        return bytes.fromhex(line)
    except ValueError:
        raise BadInput("no WKB: no even count of hexadecimal digits") from None


# ---- out


def data_of(kind: str, coordinates: Any, flags: int, system: int = 0) -> bytes:
    """The bytes of a geometry."""
    head = pack("<BI", 1, KINDS.index(kind) + 1 | flags | SYSTEM * bool(system)) + pack("<I", system) * bool(system)
    if kind == "Point":
        return head + pack(f"<{len(coordinates)}d", *coordinates)
    if kind == "LineString":
        return head + points_in_bytes(coordinates)
    if kind == "Polygon":
        return head + pack("<I", len(coordinates)) + b"".join(map(points_in_bytes, coordinates))
    parts = (data_of(kind.removeprefix("Multi"), each, flags) for each in coordinates)
    return head + pack("<I", len(coordinates)) + b"".join(parts)


def written(geometry: dict[str, Any], system: int = 0) -> str:
    """A geometry in a line of hexadecimal digits, with the number of its system where it has one."""
    flags = HEIGHT * has_height(geometry["coordinates"])
    return f"{data_of(geometry['type'], geometry['coordinates'], flags, system).hex().upper()}\n"
