"""Answers of commands: features with the members of those that they come from, files, and what is said meanwhile."""

from __future__ import annotations

import warnings
from contextlib import contextmanager
from itertools import chain
from typing import Any, Iterable, Iterator

from . import leaving, streams, tables, wkb, wkt
from .content import File
from .contour import box_of
from .errors import BadInput, PolyoverWarning
from .formats import GEOJSON, RECORDS, SEQUENCES, WKT, Format, format_of
from .holding import Holding
from .interrupts import held
from .leaving import Answer, leave_lines, parted
from .parts import Feature
from .picture import Picture
from .sequences import RECORD
from .systems import DEGREES, words_for
from .writing import ROUNDED, WHOLE, WRITERS, collection_text, feature_text


def say(text: object) -> None:
    """A line on standard error."""
    streams.say(f"polyover: {streams.told(text)}")


@contextmanager
def warnings_as_lines() -> Iterator[None]:
    """Each warning of the module is a line on standard error, once, at the end."""
    with warnings.catch_warnings(record=True) as found:
        warnings.simplefilter("always")
        try:
            yield
        finally:
            ours = [each for each in found or () if issubclass(each.category, PolyoverWarning)]
            for line in dict.fromkeys(str(each.message) for each in ours):
                say(line)


def feature_of(geometry: dict[str, Any], members: dict[str, Any]) -> dict[str, Any]:
    """A feature of an answer, with members of the given one; a box that was stated is stated of the answer."""
    if "bbox" not in members:
        return {"type": "Feature", "properties": None, **members, "geometry": geometry}
    left = {name: value for name, value in members.items() if name != "bbox"}
    return {"type": "Feature", "properties": None, **left, "bbox": bounds([geometry]), "geometry": geometry}


def null_feature(each: Feature) -> dict[str, Any]:
    """A feature without a geometry as it was."""
    return {"type": "Feature", **each.members, "geometry": None}


def bounds(geometries: Iterable[dict[str, Any] | None]) -> list[float] | None:
    """The box of geometries, as GeoJSON has it; none of nothing."""
    points: list[Any] = []
    for geometry in filter(None, geometries):
        points += points_in(geometry["coordinates"])
    return list(box_of(points)) if points else None


def tell_rounded(geometry: dict[str, Any] | None, digits: int) -> None:
    """Says where lines or polygons of an answer have coordinates that more than one whole number of units is given
    as. (Those of points are given as they were.)"""
    if geometry and geometry["type"] in WRITERS:
        numbers = list(chain.from_iterable(points_in(geometry["coordinates"])))
        if numbers and max(max(numbers), -min(numbers)) >= WHOLE / 10.0**digits:
            warnings.warn(ROUNDED, PolyoverWarning, stacklevel=2)


def points_in(coordinates: Any) -> list[Any]:
    """The points in lists of lists."""
    if coordinates and not isinstance(coordinates[0], (list, tuple)):
        return [coordinates]
    return [point for each in coordinates for point in points_in(each)]


def line_of(form: Format, feature: dict[str, Any], digits: int, system: int, place: str) -> str:
    """The line of a feature, with the number of its system where it has one; a fault names its place."""
    try:
        if form in SEQUENCES:
            return f"{RECORD * (form is RECORDS)}{feature_text(feature, digits)}\n"
        tell_rounded(feature["geometry"], digits)
        written = wkt.written if form is WKT else wkb.written
        return written(feature["geometry"], system)
    except BadInput as fault:
        raise BadInput(f"{place}: {fault}") from None


def lines_of(given: Any, form: Format, features: Iterable[dict[str, Any]], file: File) -> Iterator[str]:
    """The lines of an answer, as its features come."""
    holding = Holding(form, given.out, given.drop)
    system = holding.collection(file)
    for number, each in enumerate(features, 1):
        if not holding.is_feature(number, each):
            continue
        yield line_of(form, each, given.digits, system, f"{holding.told.source}: feature {number} of the answer")
    holding.told.say()


def text_of(given: Any, features: Iterable[dict[str, Any]], file: File) -> str:
    """The text of an answer as GeoJSON, with the members of a file's collection."""
    if file.is_table and "crs" not in file.members and file.system not in (None, *DEGREES):
        holding = Holding(GEOJSON, given.out, given.drop)
        holding.leave_out(words_for(file.system))
        holding.told.say()
    members = dict(file.members)
    if file.has_box:
        features = list(features)
        members["bbox"] = bounds(each["geometry"] for each in features)
    return collection_text(features, given.digits, members)


def leave(given: Any, features: Iterable[dict[str, Any]], picture: Picture, file: File) -> None:
    """Leaves what was answered, with what the file's collection has, and the picture if it is wanted. Where there is
    none, features of a format of lines are written as they come."""
    form = format_of(given.out, given.format)
    if form.is_table:
        tables.check_target(given, form)
        table = tables.Table(given, form, list(features), file)
        for each in table.features:
            tell_rounded(each["geometry"], given.digits)
        with held(), tables.made(table) as found:
            leaving.leave([*found, *pictures_of(given, picture)])
        return
    if form.is_lines and not given.svg:
        leave_lines(lines_of(given, form, features, file), given.out)
        return
    parts = list(lines_of(given, form, features, file)) if form.is_lines else parted(text_of(given, features, file))
    leaving.leave([(parts, given.out), *pictures_of(given, picture)])


def pictures_of(given: Any, picture: Picture) -> list[Answer]:
    """The picture, if it is wanted."""
    if not given.svg:
        return []
    picture.legend = list(dict.fromkeys(picture.legend))
    return [(parted(picture.svg(given.width)), given.svg)]
