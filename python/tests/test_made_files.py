"""Made features, read and written: areas and holes against an exact reading by fractions, and faults by their places.

The polygons are boxes with holes that are boxes: closed or not, in both directions, from any corner, with equal points
and points on their sides, tiny and huge, far from the origin, touching, overlapping and outside; with heights, empty
and null geometries, in collections of collections."""

import copy
import json
import random
import re
import unittest
import warnings
from fractions import Fraction

import polyover
from polyover import geojson

FILES = 400
SPOILED = 800
JUNK = (None, True, 5, "x", float("nan"), float("inf"), [], {}, [[]], [None], {"type": "Polygone"})


# ---- what is made


def made_box(chance, size):
    """A box on few places: its sides in the order left, low, right, high."""
    places = [size * at / 8 for at in range(9)]
    (left, right), (low, high) = (sorted(chance.sample(places, 2)) for _ in range(2))
    return left, low, right, high


def made_ring(chance, box, origin):
    """A ring round a box."""
    left, low, right, high = box
    ring = [(left, low), (right, low), (right, high), (left, high)]
    at = chance.randrange(4)
    ring = ring[at:] + ring[:at]
    if chance.random() < 0.5:
        ring.reverse()
    if chance.random() < 0.3:
        (x, y), (u, v) = ring[0], ring[1]
        ring.insert(1, ((x + u) / 2, (y + v) / 2))
    if chance.random() < 0.3:
        at = chance.randrange(len(ring))
        ring.insert(at, ring[at])
    if chance.random() < 0.5:
        ring.append(ring[0])
    heights = [[7]] * len(ring) if chance.random() < 0.1 else [[]] * len(ring)
    return [[x + origin[0], y + origin[1], *height] for (x, y), height in zip(ring, heights)]


def made_polygon(chance, size, origin):
    """The rings of a polygon; its holes may overlap, touch, or lie outside."""
    return [made_ring(chance, made_box(chance, size), origin) for _ in range(chance.choice((1, 1, 2, 3)))]


def made_geometry(chance, size, origin):
    """A geometry, which may be null, empty or nested, and its polygons."""
    kind = chance.randrange(8)
    if kind == 0:
        return None, []
    if kind == 1:
        return {"type": "MultiPolygon", "coordinates": []}, []
    if kind == 2:
        parts = [made_geometry(chance, size, origin) for _ in range(2)]
        some = [each for each, _ in parts if each] + [{"type": "Polygon", "coordinates": []}]
        some.append({"type": "Point", "coordinates": list(origin)})
        return {"type": "GeometryCollection", "geometries": some}, [rings for _, its in parts for rings in its]
    polygons = [made_polygon(chance, size, origin) for _ in range(1 if kind < 5 else chance.randint(1, 3))]
    if kind < 5:
        return {"type": "Polygon", "coordinates": polygons[0]}, polygons
    return {"type": "MultiPolygon", "coordinates": polygons}, polygons


def made_file(chance):
    """A collection of features, the polygons of each, and a scale at which they are in range."""
    size = chance.choice((1e-6, 0.05, 1, 8, 1e5, 2.0**40))
    origin = chance.choice(((0, 0), (0.1, -0.3), (15286417.3, -7129837.7), (-179.9999, 89.9)))
    power = chance.choice((3, 6)) if size > 100 else chance.choice((5, 7, 10))
    features, polygons = [], []
    for at in range(chance.randint(1, 4)):
        its, parts = made_geometry(chance, size, origin)
        its = its or None
        features.append({"type": "Feature", "id": at, "more": [at], "properties": {"at": at}, "geometry": its})
        polygons.append(parts)
    return {"type": "FeatureCollection", "features": features}, polygons, polyover.Scaled.of_digits(power)


# ---- the exact reading


def rounded(value, scale):
    """The whole number nearest to a number times the scale, by fractions."""
    return round(Fraction(value) * scale)


def box_of(ring, scale):
    """The box of a ring in whole numbers: left, low, right, high."""
    xs, ys = zip(*((rounded(point[0], scale), rounded(point[1], scale)) for point in ring))
    return min(xs), min(ys), max(xs), max(ys)


def cells_of(polygons, scale):
    """The places of lines along x and y, and the cells between them that any of some polygons covers."""
    boxes = [[box_of(ring, scale) for ring in rings] for rings in polygons]
    xs = sorted({x for rings in boxes for box in rings for x in (box[0], box[2])})
    ys = sorted({y for rings in boxes for box in rings for y in (box[1], box[3])})

    def covers(box, x, y):
        return box[0] <= x < box[2] and box[1] <= y < box[3]

    def is_covered(x, y):
        return any(covers(rings[0], x, y) and not any(covers(hole, x, y) for hole in rings[1:]) for rings in boxes)

    return xs, ys, {(i, j) for i, x in enumerate(xs[:-1]) for j, y in enumerate(ys[:-1]) if is_covered(x, y)}


def area_of_cells(xs, ys, cells):
    """The area of cells."""
    return sum((xs[i + 1] - xs[i]) * (ys[j + 1] - ys[j]) for i, j in cells)


def pieces_of(cells):
    """The pieces of cells that are joined along sides."""
    left, pieces = set(cells), []
    while left:
        piece, reached = set(), [left.pop()]
        while reached:
            i, j = reached.pop()
            piece.add((i, j))
            near = {(i + 1, j), (i - 1, j), (i, j + 1), (i, j - 1)} & left
            left -= near
            reached += near
        pieces.append(piece)
    return pieces


def hole_count(xs, ys, cells):
    """How many holes each piece of some cells has, in order."""
    every = {(i, j) for i in range(-1, len(xs)) for j in range(-1, len(ys))}
    return sorted(len(pieces_of(every - piece)) - 1 for piece in pieces_of(cells))


def double_area(contour):
    """Twice the area of a contour."""
    return sum(a[0] * b[1] - b[0] * a[1] for a, b in zip(contour, contour[1:] + contour[:1]))


def turned(shapes):
    """Shapes whose contours begin at their least point."""
    starts = [[contour.index(min(contour)) for contour in shape] for shape in shapes]
    return sorted([c[at:] + c[:at] for c, at in zip(shape, its)] for shape, its in zip(shapes, starts))


class Made(unittest.TestCase):
    """Made files."""

    def setUp(self):
        silent = warnings.catch_warnings()
        silent.__enter__()  # pylint: disable=unnecessary-dunder-call
        self.addCleanup(silent.__exit__, None, None, None)
        warnings.simplefilter("ignore")

    def test_areas_and_holes(self):
        chance = random.Random(56)
        for number in range(FILES):
            things, polygons, scaled = made_file(chance)
            for each, parts in zip(things["features"], polygons):
                with self.subTest(number=number, each=each["id"]):
                    self.check_feature(json.loads(json.dumps(each)), parts, scaled)
            with self.subTest(number=number):
                self.check_feature(things, [rings for parts in polygons for rings in parts], scaled)

    def check_feature(self, thing, polygons, scaled):
        """That the shapes of a feature have the area and the holes of the exact reading, and come back as they are."""
        shapes = scaled.overlay(thing)
        whole = [scaled.whole(shape) for shape in shapes]
        cells = cells_of(polygons, scaled.scale)
        self.assertEqual(sum(double_area(contour) for shape in whole for contour in shape), 2 * area_of_cells(*cells))
        self.assertEqual(sorted(len(shape) - 1 for shape in whole), hole_count(*cells))
        plain = scaled.overlay(polyover.contours_of(thing))
        self.assertEqual(sum(double_area(scaled.whole([c])[0]) for s in plain for c in s), 2 * area_of_cells(*cells))
        written = json.dumps(geojson.collection([{"type": "Feature", "geometry": geojson.polygons(shapes)}]))
        self.assertEqual(turned(scaled.overlay(json.loads(written))), turned(shapes))

    def test_faults_name_the_feature(self):
        chance, faults = random.Random(57), 0
        for number in range(SPOILED):
            things, polygons, scaled = made_file(chance)
            if not any(polygons):
                continue
            at = chance.randrange(len(things["features"]))
            things["features"][at] = spoiled(chance, things["features"][at])
            for read in (polyover.contours_of, scaled.contours_of, lambda thing, at=scaled: at.overlay(thing)):
                try:
                    read(things)
                except polyover.BadInput as fault:
                    faults += 1
                    found = re.match(r"feature (\d+)[:,]", str(fault))
                    # (a geometry of another kind is a fault only where it is the spoiled one that had all polygons)
                    is_other_kind = "in the place of Polygon or MultiPolygon" in str(fault)
                    self.assertTrue(is_other_kind or found and int(found[1]) == at + 1, (number, str(fault)))
        self.assertGreater(faults, SPOILED // 2)


def spoiled(chance, thing):
    """A feature with something inside exchanged or left out."""
    thing = copy.deepcopy(thing)
    here = thing
    for _ in range(chance.randint(0, 8)):
        inner = [each for each in (here.values() if isinstance(here, dict) else here) if isinstance(each, (dict, list))]
        if not inner:
            break
        here = chance.choice(inner)
    keys = list(here) if isinstance(here, dict) else list(range(len(here)))
    if keys and chance.random() < 0.3:
        del here[chance.choice(keys)]
    elif keys:
        here[chance.choice(keys)] = copy.deepcopy(chance.choice(JUNK))
    return thing


if __name__ == "__main__":
    unittest.main()
