"""Overlays of two files that keep the features of both: a piece for each pair of features that meet, and what is left
of each feature by itself."""

from __future__ import annotations

from itertools import chain
from typing import Any, Callable, Iterator, NamedTuple, Sequence

from . import calls, geojson, together
from .answers import feature_of
from .content import File
from .contour import Row, points_in, row_of
from .errors import BadInput
from .nearby import Index, Nearby, Node, Region, box_round, regions_of_contours
from .parts import Feature
from .progress import faults_of, long_work
from .scaled import Scaled
from .text import Rule
from .together import Asked
from .words import AT_ONCE, fill_of, groups_of, look_of, rows_of

Step = Callable[[], Any]
# the shapes of each pair that is asked, by the rule, where faults name the source
Overlaid = Callable[[Sequence[Asked], str, Rule], Iterator[Any]]
# of each rule whether it has pieces of both files, and those of the first and of the second alone
PARTS = {
    "subject": (True, True, False),
    "clip": (True, False, True),
    "intersect": (True, False, False),
    "union": (True, True, True),
    "difference": (False, True, False),
    "inverse_difference": (False, False, True),
    "xor": (False, True, True),
}
ID = "id"


class Filled(NamedTuple):
    """A feature, the contours of what it fills, for the fill rule nonzero, and boxes that hold this."""

    feature: Feature
    contours: list[Row]
    nearby: Nearby
    boxes: Sequence[Region]


class Piece(NamedTuple):
    """The shapes of a piece, and the features that it is of."""

    shapes: Any
    first: Feature | None
    second: Feature | None


class Layer:
    """The features of a file that fill anything, to be asked for those near others."""

    def __init__(self, given: Any, scaled: Scaled, file: File) -> None:
        self.file = file
        self.regions: list[Filled] = []
        for group in groups_of(file):
            for each, contours in zip(group, rows_of(given, scaled, file, group)):
                if given.fill:
                    points = list(map(points_in, contours))
                    with faults_of(file.name, place=each.place):
                        shapes = calls.overlay(points, (), "subject", fill_of(given), solver=given.solver)
                    contours = [row_of(contour) for shape in shapes for contour in shape]
                if any(contours):
                    self.regions.append(Filled(each, contours, Nearby(contours), regions_of_contours(contours)))
        file.told.say()
        boxes = [box_round(list(chain.from_iterable(each.contours))) for each in self.regions]
        self.index = Index([Node(box, []) for box in boxes])
        self.whole = Nearby(contour for each in self.regions for contour in each.contours)

    def near(self, boxes: Sequence[Region]) -> list[Filled]:
        """The features whose boxes come near some boxes."""
        return [self.regions[node.place] for node in self.index.near(boxes)]

    def columns(self) -> list[str]:
        """The names of all properties."""
        named = (each.members.get("properties") or {} for each in self.file.features)
        return list(dict.fromkeys(name for properties in named for name in properties))


# ---- pieces


def pieces_of_both(first: Layer, second: Layer, overlaid: Overlaid, step: Step) -> Iterator[Piece]:
    """The pieces of pairs of features that meet, in the order of the first file and then of the second."""
    for group in grouped(first.regions):
        pairs = [(one, other) for one in group for other in second.near(one.boxes)]
        near = [(one, other, other.nearby.near(one.boxes)) for one, other in pairs]
        meeting = [each for each in near if each[2]]
        asked = [Asked(one.feature.place, one.nearby.near(other.boxes), part) for one, other, part in meeting]
        for (one, other, _), shapes in zip(meeting, overlaid(asked, first.file.name, "intersect")):
            if shapes:
                yield Piece(shapes, one.feature, other.feature)
        for _ in group:
            step()


def pieces_of_one(layer: Layer, other: Layer, overlaid: Overlaid, step: Step, is_first: bool) -> Iterator[Piece]:
    """The pieces of features that are in none of the other file."""
    for group in grouped(layer.regions):
        asked = [Asked(each.feature.place, each.contours, other.whole.near(each.boxes)) for each in group]
        for each, shapes in zip(group, overlaid(asked, layer.file.name, "difference")):
            if shapes:
                yield Piece(shapes, *((each.feature, None) if is_first else (None, each.feature)))
            step()


def grouped(regions: Sequence[Filled]) -> Iterator[Sequence[Filled]]:
    """Features that are asked together."""
    return (regions[at : at + AT_ONCE] for at in range(0, len(regions), AT_ONCE))


# ---- properties


class Columns:
    """The properties of pieces: those of both files, and null where a piece is of one alone. A name that both files
    have ends in _1 and in _2."""

    def __init__(self, first: Layer, second: Layer, rule: Rule, with_id: bool) -> None:
        # (what is left of one file alone has its properties alone)
        sides = [rule != "inverse_difference", rule != "difference"]
        names = [layer.columns() if is_told else [] for layer, is_told in zip((first, second), sides)]
        common = set(names[0]) & set(names[1])
        self.named = [
            {name: f"{name}_{at}" if name in common else name for name in its} for at, its in enumerate(names, 1)
        ]
        self.ids = [f"{ID}_{at}" for at, is_told in enumerate(sides, 1) if with_id and is_told]
        every = [*self.named[0].values(), *self.named[1].values(), *self.ids]
        twice = next((name for name in every if every.count(name) > 1), None)
        if twice is not None:
            files = f"{first.file.name} and {second.file.name}"
            raise BadInput(f"{files}: two properties of an answer have the name {twice!r}")

    def of(self, piece: Piece) -> dict[str, Any]:
        """The properties of a piece."""
        found: dict[str, Any] = {}
        for named, feature in zip(self.named, (piece.first, piece.second)):
            given = feature.members.get("properties") or {} if feature else {}
            found.update((name, given.get(own)) for own, name in named.items())
        for name in self.ids:
            feature = piece.first if name == f"{ID}_1" else piece.second
            found[name] = feature.members.get(ID, feature.number) if feature else None
        return found


# ---- all of it


def features_of_both(given: Any, scaled: Scaled, first: File, second: File) -> list[dict[str, Any]]:
    """For each piece of two files, by the rule that is given, a feature with the properties of those that it is of."""
    layers = Layer(given, scaled, first), Layer(given, scaled, second)
    columns, look = Columns(*layers, given.rule, given.id), look_of(given, scaled)
    has_both, has_first, has_second = PARTS[given.rule]
    counts = [len(each.regions) for each in layers]
    count = counts[0] * (has_both + has_first) + counts[1] * has_second

    def overlaid(asked: Sequence[Asked], source: str, rule: Rule) -> Iterator[Any]:
        found = together.answers(
            asked,
            source,
            lambda pairs: together.overlays(pairs, rule, "nonzero", **look),
            lambda pair: calls.overlay(*pair, rule, "nonzero", **look),
        )
        return map(scaled.rows, found)

    pieces: list[Piece] = []
    with long_work(f"overlay of {counts[0]} and {counts[1]} features", count, given.quiet) as step:
        if has_both:
            pieces += pieces_of_both(*layers, overlaid, step)
        if has_first:
            pieces += pieces_of_one(*layers, overlaid, step, True)
        if has_second:
            pieces += pieces_of_one(*layers[::-1], overlaid, step, False)
    return [feature_of(geojson.polygons(each.shapes), {"properties": columns.of(each)}) for each in pieces]
