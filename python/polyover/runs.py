"""The commands over files of GeoJSON: what each reads, asks and leaves."""

from __future__ import annotations

from contextlib import contextmanager
from fractions import Fraction
from itertools import count, islice
from typing import Any, Callable, Iterable, Iterator, Sequence

from . import by_library, calls, files, geojson, leaving, together
from .answers import feature_of, leave, null_feature, say
from .columns import numpy_for
from .content import File
from .contour import Row, WholePath
from .errors import BadInput
from .flat import Flat, flat_rows
from .formats import GEOJSON, format_of
from .inputs import picture_of
from .layers import features_of_both
from .nearby import LinesNearby, Nearby
from .parts import Feature
from .picture import Picture
from .prepared import Prepared
from .progress import faults_of, long_work
from .reading import Lines, Polygons, check_range
from .scaled import Scaled
from .systems import DEFAULT, DEGREES
from .text import Fill
from .together import Asked, Pair, Points
from .told import counted
from .words import fill_of, groups_of, look_of, paths_of, polygons_of, rings_of, rows_of
from .writing import json_text

KEEPING = ("intersect", "difference")
LOCATION = "location"
POINTLESS = counted("# [feature without a point is|features without a point are] left out")


@contextmanager
def work_on_two(given: Any, what: str, first: File, second: File) -> Iterator[None]:
    """One long call on two files, which its faults name."""
    with faults_of(first.name, second.name), long_work(what, is_quiet=given.quiet):
        yield


def two_of_polygons(given: Any) -> tuple[File, File]:
    """The two files of polygons; where features of the first are answered by themselves, they may come one by one."""
    is_streamed = getattr(given, "keep", None) == "first" and not given.svg
    first = files.polygons_of(given.subject, given, is_streamed=is_streamed)
    second = files.polygons_of(given.other, given)
    tell_other_crs(first, second)
    return first, second


def tell_other_crs(first: File, second: File) -> None:
    """Says that two files state different systems of coordinates."""
    stated = [each.system or each.members["crs"] for each in (first, second) if each.is_table or "crs" in each.members]
    one, *others = [DEFAULT if each in DEGREES else each for each in stated] or [None]
    if others and others[0] != one:
        say(f"{first.name} and {second.name} state different systems: coordinates are taken as they are")


# ---- two files of polygons


def run_overlay(given: Any) -> None:
    """Overlays the polygons of two files"""
    first, second = two_of_polygons(given)
    if given.keep == "first" and given.rule not in KEEPING:
        raise BadInput(f"--keep goes with the rules {' and '.join(KEEPING)}: of others many features give one piece;"
                       " --keep both goes with all rules")
    if given.id and given.keep != "both":
        raise BadInput("--id goes with --keep both")
    scaled = Scaled.of_digits(given.digits)
    picture = Picture(f"{given.rule} of two files")
    features = ANSWERS[given.keep](given, scaled, first, second)
    if given.svg:
        picture.add_contours("subject", paths_of(first))
        picture.add_contours("clip", paths_of(second))
        features = list(features)
        for each in features:
            for shape in each["geometry"]["coordinates"]:
                picture.add_contours("answer", [ring[:-1] for ring in shape], strength=0.55)
    if given.keep != "first":
        first.members = {name: value for name, value in first.members.items() if name == "crs"}
        first.has_box = False
    leave(given, features, picture, first)


def joined(given: Any, scaled: Scaled, first: File, second: File) -> list[dict[str, Any]]:
    """One feature of all shapes of an overlay."""
    both, look = (polygons_of(given, first), polygons_of(given, second)), look_of(given, scaled)
    with work_on_two(given, f"overlay of {rings_of(first)} and {rings_of(second)} rings", first, second):
        subject, clip = (scaled.region("subject", its, fill_of(given), given.solver) for its in both)
        shapes = scaled.shapes(calls.overlay(subject, clip, given.rule, fill_of(given), **look))
    properties = {"rule": given.rule} if format_of(given.out, given.format).has_properties else None
    return [feature_of(geojson.polygons(shapes), {"properties": properties})] * bool(shapes)


def kept_pieces(given: Any, scaled: Scaled, first: File, second: File) -> Iterator[dict[str, Any]]:
    """For each feature of the first file, overlaid by itself, a feature of the pieces that it gives."""
    look = look_of(given, scaled)
    what = f"overlay of {first.counted} by {rings_of(second)} rings"
    with faults_of(second.name):
        clip = Nearby(scaled.whole_rows(polygons_of(given, second)))
    with long_work(what, first.count, given.quiet) as step:
        for group in groups_of(first):
            for each, shapes in zip(group, kept(given, scaled, first, group, clip, look)):
                if shapes:
                    yield feature_of(geojson.polygons(shapes), each.members)
                step()
    first.told.say()


def kept(
    given: Any, scaled: Scaled, first: File, group: Sequence[Feature], clip: Nearby, look: dict[str, Any]
) -> Iterator[Any]:
    """For each feature the shapes of its overlay by what is near it."""
    found = rows_of(given, scaled, first, group)
    asked = [Asked(each.place, subject, clip.part_within(subject)) for each, subject in zip(group, found)]
    is_asked = [bool(each.second) or given.rule != "intersect" for each in asked]

    def one(pair: Points) -> Any:
        return calls.overlay(*pair, given.rule, fill_of(given), **look)

    def all_at_once(pairs: Sequence[Pair]) -> Any:
        return together.overlays(pairs, given.rule, fill_of(given), **look)

    told = together.answers([each for each, is_one in zip(asked, is_asked) if is_one], first.name, all_at_once, one)
    return (scaled.rows(next(told)) if is_one else [] for is_one in is_asked)


ANSWERS: dict[str | None, Callable[[Any, Scaled, File, File], Iterable[dict[str, Any]]]]
ANSWERS = {None: joined, "first": kept_pieces, "both": features_of_both}


def run_relate(given: Any) -> None:
    """Tells which relations hold between the polygons of two files"""
    form = format_of(given.out)
    if form is not GEOJSON:
        raise BadInput(f"{given.out}: relations are JSON, and not {form.name}")
    first, second = two_of_polygons(given)
    both = polygons_of(given, first), polygons_of(given, second)
    with work_on_two(given, f"relations of {rings_of(first)} and {rings_of(second)} rings", first, second):
        relations = Scaled.of_digits(given.digits).relate(*both, fill_of(given), solver=given.solver)
    leaving.leave([(leaving.parted(json_text(relations) + "\n"), given.out)])


# ---- polygons and lines


def run_clip(given: Any) -> None:
    """Clips the lines of a file, feature by feature, by the polygons of a second file"""
    area = files.polygons_of(given.subject, given)
    roads = files.lines_of(given.other, given, tells_nulls=False, is_streamed=not given.svg)
    tell_other_crs(area, roads)
    picture = Picture("lines, clipped")
    if given.svg:
        picture.add_contours("subject", paths_of(area))
        picture.add_paths("line", paths_of(roads))
    leave(given, clips_of(given, area, roads, picture), picture, roads)


def clips_of(given: Any, area: File, roads: File, picture: Picture) -> Iterator[dict[str, Any]]:
    """For each feature of lines one of its parts that are kept, which the picture shows too."""
    scaled = Scaled.of_digits(given.digits)
    with faults_of(area.name):
        region = scaled.joined_rows(polygons_of(given, area), fill_of(given), given.solver)
        shape = Nearby(region)
    with long_work(f"clip of {roads.counted} by {rings_of(area)} rings", roads.count, given.quiet) as step:
        for group in groups_with_lines(scaled, roads):
            for (each, _), paths in zip(group, clipped(given, scaled, shape, roads.name, group)):
                if given.svg:
                    picture.add_paths("answer", paths)
                if each.is_null:
                    yield null_feature(each)
                elif paths:
                    yield feature_of(geojson.lines(paths), each.members)
                step()
    roads.told.say()


def groups_with_lines(scaled: Scaled, roads: File) -> Iterator[list[tuple[Feature, list[Row]]]]:
    """Features, each with its lines by whole coordinates: many at a time where they are all there."""
    if roads.count:
        # (where it pays for all of them NumPy is loaded, and then taken for parts too)
        numpy_for(sum(part.size for each in roads.features for part in each.parts))
    for group in groups_of(roads):
        parts = [part for each in group for part in each.parts]
        lines = iter(Lines(parts, roads.name, roads.told).rows(scaled))
        yield [(each, list(islice(lines, len(each.parts)))) for each in group]


def clipped(
    given: Any, scaled: Scaled, shape: Nearby, source: str, group: Sequence[tuple[Feature, list[Row]]]
) -> Iterator[Any]:
    """For each feature the parts of its lines that are kept."""
    options = {"invert": given.invert, "boundary": given.boundary, "solver": given.solver}
    asked = [Asked(each.place, shape.part(lines), lines) for each, lines in group]
    # (without an edge near lines all of them is inside, or all outside)
    is_asked = [bool(each.second and (each.first or given.invert)) for each in asked]

    def one(pair: Points) -> Any:
        return calls.clip(*pair, fill_of(given), **options)

    def all_at_once(pairs: Sequence[Pair]) -> Any:
        return together.clips(pairs, fill_of(given), **options)

    found = together.answers([each for each, is_one in zip(asked, is_asked) if is_one], source, all_at_once, one)
    return (scaled.rows(next(found)) if is_one else [] for is_one in is_asked)


def run_slice(given: Any) -> None:
    """Slices the polygons of a file, feature by feature, along the lines of a second file"""
    walls = files.lines_of(given.other, given)
    scaled = Scaled.of_digits(given.digits)
    lines = LinesNearby(row for group in groups_with_lines(scaled, walls) for _, its in group for row in its)
    walls.told.say()

    def cut(polygons: Polygons) -> Any:
        contours = scaled.joined_rows(polygons, fill_of(given), given.solver)
        given_to = flat_rows(contours), flat_rows(lines.part(contours))
        return scaled.answered(calls.slice(*given_to, fill_of(given), solver=given.solver, arrays=True), False)

    answer_features(given, "slices", cut, walls, is_parted=True)


# ---- polygons


def run_simplify(given: Any) -> None:
    """Makes the polygons of a file valid, feature by feature"""
    scaled = Scaled.of_digits(given.digits)
    look = look_of(given, scaled)

    def answer(area: Polygons) -> Any:
        region = scaled.region("subject", area, fill_of(given), given.solver)
        return scaled.shapes(calls.overlay(region, (), "subject", fill_of(given), **look))

    answer_features(given, "simplified", answer)


def run_tiles(given: Any) -> None:
    """Cuts the polygons of a file along a grid, feature by feature"""
    scaled = Scaled.of_digits(given.digits)
    sides = Fraction(given.wide), Fraction(given.high)

    def cut(polygons: Polygons) -> Any:
        return scaled.tiles(polygons, *sides, fill_of(given), solver=given.solver)

    answer_features(given, "tiles", cut, is_parted=True)


def answer_features(
    given: Any, title: str, answer: Callable[[Polygons], Any], walls: File | None = None, is_parted: bool = False
) -> None:
    """Leaves for each feature of polygons one of what is answered, or, where it is parted, one for each shape."""
    area = files.polygons_of(given.subject, given, tells_nulls=False, is_streamed=not given.svg)
    picture = Picture(title)
    if walls:
        tell_other_crs(area, walls)
    if given.svg:
        picture.add_contours("subject", paths_of(area))
        picture.add_paths("line", paths_of(walls) if walls else [])

    def answers() -> Iterator[dict[str, Any]]:
        with long_work(f"{title} of {area.counted}", area.count, given.quiet) as step:
            for each in area.features:
                if each.is_null:
                    yield null_feature(each)
                with faults_of(area.name, place=each.place):
                    shapes = answer(polygons_of(given, area, each.parts))
                for shape in shapes if given.svg else ():
                    picture.add_contours("answer", shape, strength=0.55)
                groups = [[shape] for shape in shapes] if is_parted else [shapes] * bool(shapes)
                yield from (feature_of(geojson.polygons(group), each.members) for group in groups)
                step()
        area.told.say()

    leave(given, answers(), picture, area)


def run_locate(given: Any) -> None:
    """Locates the points of a file in the polygons of a second file, as the property location of each feature"""
    area = files.polygons_of(given.subject, given)
    places = files.points_of(given.other, given)
    tell_other_crs(area, places)
    scaled = Scaled.of_digits(given.digits)
    with work_on_two(given, f"places of {places.count} features in {rings_of(area)} rings", area, places):
        contours = flat_rows(scaled.whole_rows(polygons_of(given, area)))
        points = [point[:2] for path in paths_of(places) for point in path]
        told = told_in(contours, whole_points_of(scaled, places, points), fill_of(given))
    picture = Picture("points, located")
    if given.svg:
        picture.add_contours("subject", paths_of(area))
        for name in ("inside", "boundary", "outside"):
            picture.add_points(name, [point for point, place in zip(points, told) if place == name])
    found, moved = iter(told), name_for_own(places)
    features = [located(each, found, moved) for each in places.features if each.is_null or has_point(each, places)]
    places.told.say()
    leave(given, features, picture, places)


def told_in(contours: Flat, points: WholePath, fill: Fill) -> list[str]:
    """Where points lie in contours: as these are given, or, where the library can't tell that, once edges are split."""
    if by_library.can("prepare_exact"):
        return Prepared(contours, fill).locate(points)
    shapes = calls.overlay(contours, (), "subject", fill, arrays=True)
    return calls.locate(shapes.contours, points)


def whole_points_of(scaled: Scaled, places: File, points: Sequence[Any]) -> WholePath:
    """The points of a file with whole coordinates, in the range."""
    found = scaled.whole_path(points)
    parts = [part for each in places.features for part in each.parts]
    check_range(places.name, [(part.place, [point]) for part, point in zip(parts, found)])
    return found


def has_point(each: Feature, places: File) -> bool:
    """Whether a feature has a point; one that has none is counted."""
    if not each.parts:
        places.told.add(POINTLESS, each.place)
    return bool(each.parts)


def name_for_own(places: File) -> str:
    """The name under which features keep a property location of their own: the first that none of them has, of
    location_1, location_2 and so on."""
    taken = {name for each in places.features for name in each.members.get("properties") or {}}
    return next(name for name in (f"{LOCATION}_{at}" for at in count(1)) if name not in taken)


def located(each: Feature, found: Iterator[str], moved: str) -> dict[str, Any]:
    """A feature of points, with where they lie: one place, or a list for several points. A property location that it
    has already is moved to another name."""
    if each.is_null:
        return null_feature(each)
    given = each.members.get("properties") or {}
    properties = {moved if name == LOCATION else name: value for name, value in given.items()}
    points = [point for path in each.paths for point in path]
    told = [next(found) for _ in points]
    is_one = len(points) == 1
    coordinates = points[0] if is_one else points
    geometry = {"type": "Point" if is_one else "MultiPoint", "coordinates": coordinates}
    members = {**each.members, "properties": {**properties, LOCATION: told[0] if is_one else told}}
    return feature_of(geometry, members)


# ---- pictures


def run_svg(given: Any) -> None:
    """Draws an input of the program and its answer"""
    text = files.text_of(given.input)
    with faults_of(files.shown_name(given.input)), long_work("picture", is_quiet=given.quiet):
        picture = picture_of(text, given.nodes)
    leaving.leave([(leaving.parted(picture.svg(given.width)), given.out)])
