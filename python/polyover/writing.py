"""Features of answers as the text that `json` makes of them, in less than half the time: a number of an answer has few
digits, so its text is that of the nearest float with as many, and all else of many features is written by one call."""

from __future__ import annotations

import json
import warnings
from itertools import chain, islice
from math import isfinite
from typing import Any, Iterable, Sequence

from .errors import BadInput, PolyoverWarning
from .geojson import collection

# (up to which number decimals of few digits are written, and floats are whole units exactly)
Limits = tuple[float, float]
# (floats hold all whole numbers below this one, which stands for the next one too)
WHOLE = 2.0**53
ROUNDED = "coordinates of the answer 2^53 units of the last digit from 0, or more, are given as the nearest floats"
# (decimals of this many digits are texts of different floats, and Python makes them soonest)
DIGITS = 14
POINT = f"[{{:.{DIGITS}}}, {{:.{DIGITS}}}], "
# (how a feature ends whose coordinates are left out)
END = "null}}"
ENCODER = json.JSONEncoder(allow_nan=False)
# (no text within quotes has it: there a quote has a backslash before it)
GAP = f'"coordinates": {END}'
# (features that are written together)
AT_ONCE = 500


def json_text(value: dict[str, Any]) -> str:
    """The text of an object of an answer as JSON, which has no number that is not finite."""
    try:
        return ENCODER.encode(value)
    except RecursionError:
        raise BadInput("properties have too many lists or objects in one another") from None
    except ValueError:
        raise BadInput(f"JSON holds finite numbers alone, and no {place_of_infinite(value)}") from None


def place_of_infinite(value: dict[str, Any]) -> str:
    """The first number that is not finite, and the member of an object in which it stands, at any depth."""
    things: list[tuple[str, Any]] = list(value.items())[::-1]
    while things:
        name, thing = things.pop()
        if isinstance(thing, float) and not isfinite(thing):
            return f"{thing} as {name}"
        if isinstance(thing, dict):
            things += [(f"{name}.{key}", each) for key, each in thing.items()][::-1]
        elif isinstance(thing, (list, tuple)):
            things += [(f"{name}[{at}]", each) for at, each in enumerate(thing)][::-1]
    return "other"


def collection_text(features: Iterable[dict[str, Any]], digits: int, members: dict[str, Any]) -> str:
    """The lines of a collection of features, with members of its own; coordinates of lines and polygons have `digits`
    behind the point."""
    left, texts, number = iter(features), [], 1
    while group := list(islice(left, AT_ONCE)):
        texts.append(features_text(group, digits, number))
        number += len(group)
    return f"{json_text(collection((), **members))[:-2]}{', '.join(texts)}]}}\n"


def features_text(features: Sequence[dict[str, Any]], digits: int, number: int) -> str:
    """The texts of features, whose geometry is the last member of each, with commas between them; `number` is that of
    the first."""
    heads, coordinates = [], []
    for each in features:
        head, text = parted(each, digits)
        heads.append(head)
        coordinates += [text] * bool(text)
    try:
        parts = ENCODER.encode(heads)[1:-1].split(GAP)
    except (RecursionError, ValueError):
        # (so that the fault names its feature)
        parts = []
    if len(parts) != len(coordinates) + 1:
        # (or properties have such a member)
        return ", ".join([text_at(at, each, digits) for at, each in enumerate(features, number)])
    ends = [f'"coordinates": {text}}}}}{part}' for text, part in zip(coordinates, parts[1:])]
    return "".join([parts[0], *ends])


def text_at(number: int, feature: dict[str, Any], digits: int) -> str:
    """The text of a feature of an answer, whose number a fault names."""
    try:
        return feature_text(feature, digits)
    except BadInput as fault:
        raise BadInput(f"feature {number} of the answer: {fault}") from None


def feature_text(feature: dict[str, Any], digits: int) -> str:
    """The text of a feature, whose geometry is its last member."""
    head, coordinates = parted(feature, digits)
    text = json_text(head)
    return f"{text[:-len(END)]}{coordinates}}}}}" if coordinates else text


def parted(feature: dict[str, Any], digits: int) -> tuple[dict[str, Any], str]:
    """A feature without the coordinates of its lines or polygons, and their text; or all of it, and no text."""
    geometry = feature["geometry"]
    write = geometry and WRITERS.get(geometry["type"])
    if not write:
        return feature, ""
    # (from a greater number on there are more digits, or an exponent)
    limits = 10.0 ** (DIGITS - max(1, digits)), WHOLE / 10.0**digits
    head = {**feature, "geometry": {"type": geometry["type"], "coordinates": None}}
    return head, write(geometry["coordinates"], limits)


def path_text(path: Sequence[Any], limits: Limits) -> str:
    """The text of points of floats; by `json` where one is not below the first limit. Says where one is not below
    the second: more than one whole number of units has that float."""
    numbers = list(chain.from_iterable(path))
    least, most = min(numbers), max(numbers)
    if not -limits[0] < least <= most < limits[0]:
        if max(-least, most) >= limits[1]:
            warnings.warn(ROUNDED, PolyoverWarning, stacklevel=2)
        return json.dumps(path)
    return f"[{(POINT * len(path))[:-2]}]".format(*numbers)


def lines_text(paths: Sequence[Any], limits: Limits) -> str:
    """The text of some paths."""
    return f"[{', '.join([path_text(path, limits) for path in paths])}]"


def polygons_text(shapes: Sequence[Any], limits: Limits) -> str:
    """The text of some shapes."""
    return f"[{', '.join([lines_text(shape, limits) for shape in shapes])}]"


WRITERS = {"MultiLineString": lines_text, "MultiPolygon": polygons_text}
