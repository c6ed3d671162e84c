"""Systems of coordinates, by their codes, as EPSG:3857."""

from __future__ import annotations

import re
from typing import Any

# what GeoJSON has where it states nothing, and its twin: longitudes and latitudes
DEFAULT, TWIN = "OGC:CRS84", "EPSG:4326"
DEGREES = (DEFAULT, TWIN)
CODE = re.compile(
    r"(?:urn:(?:x-)?ogc:def:crs:|https?://www\.opengis\.net/def/crs/)?(EPSG|OGC)[:/](?:[\w.]*[:/])?(\w+)", re.IGNORECASE
)


def code_in(crs: Any) -> str | None:
    """The code that a member crs of GeoJSON states; None where it states none that is known."""
    properties = crs.get("properties") if isinstance(crs, dict) else None
    name = properties.get("name") if isinstance(properties, dict) else None
    found = CODE.fullmatch(name) if isinstance(name, str) else None
    return f"{found[1].upper()}:{found[2].upper()}" if found else None


def is_same(one: Any, other: Any) -> bool:
    """Whether two members crs state the same system."""
    codes = {DEFAULT if code == TWIN else code for code in (code_in(one), code_in(other))}
    return bool(one == other) or len(codes) == 1 and None not in codes


def crs_of(code: str) -> dict[str, Any]:
    """The member crs that states a code."""
    place, number = code.split(":")
    version = "1.3" if place == "OGC" else ""
    return {"type": "name", "properties": {"name": f"urn:ogc:def:crs:{place}:{version}:{number}"}}


def system_in(members: dict[str, Any]) -> str | None:
    """The system of a collection of GeoJSON, by its code; None where it states one without a code, or that it is not
    known."""
    return code_in(members["crs"]) if "crs" in members else DEFAULT


def words_for(system: str | None) -> str:
    """A system in a message."""
    if system is None:
        return "the system of coordinates that the member crs states"
    return f"the system of coordinates {system}" if CODE.fullmatch(system) else "a system of coordinates without a code"


def number_in(system: str | None) -> int | None:
    """The number of an EPSG code."""
    place, _, number = (system or "").partition(":")
    return int(number) if place == "EPSG" and number.isdecimal() else None
