"""Formats of files: which of them a name stands for, and what each holds."""

from __future__ import annotations

import re
from typing import NamedTuple

from .errors import BadInput

STANDARD = "-"


class Format(NamedTuple):
    """A format: its name in messages, whether its features stand in lines, and what it holds beside geometries."""

    name: str
    is_lines: bool = False
    is_table: bool = False
    has_properties: bool = True


GEOJSON = Format("GeoJSON")
LINES = Format("GeoJSONSeq", is_lines=True)
RECORDS = Format("GeoJSONSeq with record separators", is_lines=True)
WKT = Format("WKT", is_lines=True, has_properties=False)
WKB = Format("WKB", is_lines=True, has_properties=False)
GEOPACKAGE = Format("GeoPackage", is_table=True)
SHAPEFILE = Format("Shapefile", is_table=True)
SEQUENCES, PLAIN = (LINES, RECORDS), (WKT, WKB)

OF_SUFFIX = {
    "geojsonl": LINES,
    "geojsons": RECORDS,
    "wkt": WKT,
    "wkb": WKB,
    "gpkg": GEOPACKAGE,
    "shp": SHAPEFILE,
}
# others, which are taken for none of these
OTHERS = {
    **dict.fromkeys(("parquet", "geoparquet"), "GeoParquet"),
    **dict.fromkeys(("gz", "zip", "bz2", "xz", "zst", "kmz"), "a compressed file"),
    "fgb": "FlatGeobuf",
    "csv": "CSV",
    "gml": "GML",
    "kml": "KML",
    "topojson": "TopoJSON",
}
# the words for what standard input and output have
STREAMED = {"geojson": GEOJSON, **{word: form for word, form in OF_SUFFIX.items() if form.is_lines}}
# a GeoPackage, and one of its layers
LAYERED = re.compile(r"(.*\.gpkg):(.+)", re.IGNORECASE | re.DOTALL)


def format_of(name: str | None, streamed: str = "geojson") -> Format:
    """The format that a file has by its name; of standard input and output the one that is told."""
    if name is None or name == STANDARD:
        return STREAMED[streamed]
    path, _ = layer_in(name)
    suffix = path.rpartition(".")[2].lower()
    if suffix in OTHERS:
        raise BadInput(f"{name}: {OTHERS[suffix]} is not taken")
    return OF_SUFFIX.get(suffix, GEOJSON)


def layer_in(name: str) -> tuple[str, str | None]:
    """The path in a name, and the layer of a GeoPackage that it names behind a colon."""
    found = LAYERED.fullmatch(name)
    return (found[1], found[2]) if found else (name, None)
