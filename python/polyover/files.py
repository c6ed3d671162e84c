"""Files in: the features that each has, whatever its format."""

from __future__ import annotations

import json
import sys
from contextlib import contextmanager
from itertools import chain
from typing import Any, Callable, Iterable, Iterator, Sequence

from . import many, tables, wkb, wkt
from .antimeridian import watch_over
from .content import Content, File
from .errors import BadInput
from .formats import GEOJSON, SEQUENCES, STANDARD, WKT, Format, format_of
from .geojson import features_in, geometry_of
from .parts import LINES, POINTS, POLYGONS, Feature
from .progress import faults_of
from .reader import Reader
from .sequences import once, values_in
from .streams import INPUT, closed, read_all
from .systems import DEFAULT, DEGREES, crs_of, is_same, system_in
from .told import Told, counted

# members of a collection that an answer has anew
OWN = ("type", "features", "bbox")
NESTED = "too many lists or objects in one another"
LEFT_OUT = counted("# [feature|features] without a geometry [is|are] left out")


# ---- what a file holds


def shown_name(name: str) -> str:
    """The name of a file in a message."""
    return INPUT if name == STANDARD else name


@contextmanager
def naming(name: str) -> Iterator[None]:
    """Each fault of reading names the file."""
    try:
        yield
    except OSError as fault:
        raise BadInput(f"{shown_name(name)}: {fault.strerror or fault}") from None
    except ValueError as fault:
        raise BadInput(f"{shown_name(name)}: {fault}") from None
    except RecursionError:
        raise BadInput(f"{shown_name(name)}: {NESTED}") from None


@contextmanager
def in_line(number: int) -> Iterator[None]:
    """Each fault names the line."""
    try:
        yield
    except ValueError as fault:
        raise BadInput(f"line {number}: {fault}") from None


def bytes_of(name: str) -> bytes:
    """What a file holds, or standard input."""
    if name == STANDARD:
        return read_all()
    with open(name, "rb") as file:
        return file.read()


def text_of(name: str) -> str:
    """The text of a file; BadInput, which names it, where there is none."""
    with naming(name):
        return bytes_of(name).decode("utf-8-sig")


@contextmanager
def opened(name: str) -> Iterator[Any]:
    """A file, or standard input, to be read by its lines."""
    if name != STANDARD:
        with open(name, "rb") as file:
            yield file
    elif sys.stdin is None:
        raise closed()
    else:
        yield sys.stdin.buffer


def lines_in(name: str) -> Iterator[tuple[int, str]]:
    """The lines of a file as they come, each with its number."""
    with opened(name) as file:
        for number, line in enumerate(file, 1):
            with in_line(number):
                text = line.decode("utf-8-sig" if number == 1 else "utf-8")
            yield number, text


# ---- formats


def drained(things: list[Any]) -> Iterator[Any]:
    """The items of a list, which loses each as it comes: then its memory is free, where nothing else needs it."""
    things.reverse()
    while things:
        yield things.pop()


def systems_of(thing: Any) -> Iterator[Any]:
    """The members crs that a feature and its geometry have themselves. They lose them."""
    if isinstance(thing, dict):
        geometry = thing.get("geometry")
        if isinstance(geometry, dict) and "crs" in geometry:
            yield geometry.pop("crs")
        if "crs" in thing:
            yield thing.pop("crs")


def add_system(members: dict[str, Any], thing: Any, place: str) -> None:
    """Adds the member crs that a feature states in the place of its collection; one that differs is a fault."""
    for crs in systems_of(thing):
        stated = members.setdefault("crs", crs)
        if not is_same(crs, stated):
            raise BadInput(f"{place}: its member crs is another than that before it: one file has one system")


def json_content(name: str) -> Content:
    """What a file of GeoJSON has."""
    found = json.loads(bytes_of(name).decode("utf-8-sig"), object_pairs_hook=once)
    whole = geometry_of(found)
    is_collection = whole["type"] == "FeatureCollection"
    members = {key: value for key, value in whole.items() if key not in OWN} if is_collection else {}
    features = list(features_in(whole))
    for number, each in enumerate(features, 1):
        add_system(members, each, f"feature {number}")
    things = ((0, each) for each in drained(features))
    return Content(things, members, system_in(members), is_collection and "bbox" in whole)


def with_system(things: Iterator[tuple[int, Any]], members: dict[str, Any]) -> Iterator[tuple[int, Any]]:
    """The features of a sequence, each with its line, which state the system of the first of them."""
    stated = {"crs": members.get("crs", crs_of(DEFAULT))}
    for line, each in things:
        add_system(stated, each, f"line {line}")
        yield line, each


def sequence_content(name: str) -> Content:
    """What a sequence has: its system is the one that its first feature states."""
    things = values_in(lines_in(name))
    members: dict[str, Any] = {}
    first = next(things, None)
    if first:
        add_system(members, first[1], f"line {first[0]}")
    return Content(with_system(chain([first] if first else (), things), members), members, system_in(members))


def geometries_in(name: str, form: Format) -> Iterator[tuple[int, int, Any]]:
    """The geometries of a file of WKT or WKB, each with its line and the number of its system, or 0."""
    if form is WKT:
        for number, text in wkt.texts_in(lines_in(name)):
            with in_line(number):
                yield (number, *wkt.geometry_in(text))
        return
    data = bytes_of(name)
    if data[:1] in (b"\0", b"\1"):
        yield (0, *wkb.geometry_in(data))
        return
    for number, line in enumerate(data.decode("utf-8-sig").split("\n"), 1):
        if line.strip():
            with in_line(number):
                yield (number, *wkb.geometry_in(wkb.bytes_in(line)))


def plain_content(name: str, form: Format) -> Content:
    """What a file of WKT or WKB has."""
    found = list(geometries_in(name, form))
    codes = {code for _, code, _ in found}
    if len(codes) > 1:
        number, code = next((number, code) for number, code, _ in found if code != found[0][1])
        raise BadInput(f"line {number}: its system is SRID {code}, and that of the first geometry {found[0][1]}")
    code = codes.pop() if codes else 0
    system = f"EPSG:{code}" if code else None
    members = {"crs": crs_of(system)} if system and system not in DEGREES else {}
    return Content([(number, geometry) for number, _, geometry in found], members, system)


def content_of(name: str, form: Format) -> Content:
    """What a file has, by its format."""
    if form is GEOJSON:
        return json_content(name)
    if form.is_table:
        return tables.content_of(name, form)
    if form in SEQUENCES:
        return sequence_content(name)
    return plain_content(name, form)


# ---- features


def features_of(features: Iterable[Feature], reader: Reader, name: str, tells_nulls: bool) -> Iterator[Feature]:
    """The features that a reader has of a file, as they come. Faults name the file."""
    with naming(name):
        for each in features:
            if each.is_null and tells_nulls:
                reader.told.add(LEFT_OUT, each.place)
            yield each


def watched(features: Iterator[Feature], watch: Callable[[Feature], Feature], told: Told) -> Iterator[Feature]:
    """The features of a file, cut at the antimeridian or watched; at their end it is said what is left out."""
    with faults_of(told.source):
        for each in features:
            yield watch(each)
    told.say()


def read(name: str, kinds: Sequence[str], given: Any, tells_nulls: bool = True, is_streamed: bool = False) -> File:
    """The features of a file with their polygons, their lines or their points; says what is left out, and names the
    file. Those of a sequence come as they are read, where that is wanted."""
    form, told = format_of(name, given.format), Told(shown_name(name))
    with naming(name):
        content = content_of(name, form)
    watch = watch_over(given, kinds, content.system, told)
    reader = Reader(kinds, given.skip_invalid, told, tells_members=True)
    # (what is a fault in a later line of a sequence is told behind what is one in an earlier line)
    found_in = many.features(reader, content.things) if form is GEOJSON else reader.features(content.things)
    features: Iterable[Feature] = watched(features_of(found_in, reader, name, tells_nulls), watch, told)
    count = 0
    if not is_streamed or form not in SEQUENCES:
        features = list(features)
        count = len(features)
    beside = Told(told.source)
    found = File(told.source, features, content.members, content.has_box, beside, content.system, count)
    found.columns, found.is_table = content.columns or {}, form.is_table
    return found


def polygons_of(name: str, given: Any, tells_nulls: bool = True, is_streamed: bool = False) -> File:
    """The polygons of a file."""
    return read(name, POLYGONS, given, tells_nulls, is_streamed)


def lines_of(name: str, given: Any, tells_nulls: bool = True, is_streamed: bool = False) -> File:
    """The lines of a file."""
    return read(name, LINES, given, tells_nulls, is_streamed)


def points_of(name: str, given: Any) -> File:
    """The points of a file."""
    return read(name, POINTS, given, tells_nulls=False)
