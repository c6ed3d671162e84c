"""Made inputs, compared with GEOS by way of shapely; skipped where that is not installed."""

import random
import unittest
from math import cos, pi, sin

import polyover

from .there import with_library

try:
    from shapely.geometry import MultiLineString, MultiPolygon, Point, Polygon, shape as shapely_shape
    from shapely.ops import unary_union
    from shapely.prepared import prep
except ImportError:
    shapely_shape = None

INPUTS = 2000
RULES = {
    "union": lambda a, b: a.union(b),
    "intersect": lambda a, b: a.intersection(b),
    "difference": lambda a, b: a.difference(b),
    "xor": lambda a, b: a.symmetric_difference(b),
}


def star(chance, size):
    """A contour that goes round a point once."""
    x, y = (chance.randint(-size, size) for _ in range(2))
    turns = sorted(chance.uniform(0, 2 * pi) for _ in range(chance.randint(3, 12)))
    reach = [chance.uniform(size / 4, size) for _ in turns]
    return [(round(x + r * cos(turn)), round(y + r * sin(turn))) for turn, r in zip(turns, reach)]


def box(chance, size):
    """A rectangle on a coarse grid, so that many edges of several overlap."""
    left, low = chance.randint(0, size), chance.randint(0, size)
    right, high = left + chance.randint(1, size), low + chance.randint(1, size)
    return [(left, low), (right, low), (right, high), (left, high)]


def region(contours):
    """What contours fill, each by itself, joined by or."""
    return unary_union([Polygon(contour).buffer(0) for contour in contours])


def length(contours):
    """The length of the edges of contours."""
    return sum(Polygon(contour).exterior.length for contour in contours)


@unittest.skipIf(shapely_shape is None, "no python3 here has shapely (Debian's python3-shapely)")
class Compared(unittest.TestCase):
    """Answers that are those of GEOS, as far as rounding allows."""

    def compared(self, subject, clip, rule, lost):
        """That an overlay is that of GEOS but for an area `lost`, and that its shapes are valid."""
        shapes = polyover.overlay(subject, clip, rule)
        expected = RULES[rule](region(subject), region(clip))
        found = [Polygon(shape[0], shape[1:]) for shape in shapes]
        for each in found:
            self.assertTrue(each.is_valid, (rule, subject, clip))
        self.assertLessEqual(abs(sum(each.area for each in found) - expected.area), lost, (rule, subject, clip))
        self.assertLessEqual(unary_union(found).symmetric_difference(expected).area, lost, (rule, subject, clip))

    def test_stars(self):
        chance = random.Random(1)
        for _ in range(INPUTS // 2):
            size = chance.choice((10, 1000, 10**6))
            contours = [self.resolved(star, chance, size) for _ in range(chance.randint(2, 4))]
            # (each edge is bent by half a unit in x and y at most in each round that moves a point; rounds are few)
            self.compared(contours[:1], contours[1:], chance.choice(list(RULES)), 2 * length(contours))

    def test_boxes_exactly(self):
        chance = random.Random(2)
        for _ in range(INPUTS // 2):
            contours = [box(chance, chance.choice((3, 12))) for _ in range(chance.randint(2, 6))]
            self.compared(contours[:2], contours[2:], chance.choice(list(RULES)), 1e-9)

    def test_holes_of_any_kind(self):
        chance = random.Random(6)
        for _ in range(INPUTS // 4):
            size, scaled = chance.choice((1000, 10**6)), polyover.Scaled(1)
            polygons = []
            for _ in range(chance.randint(1, 3)):
                rings = [self.resolved(star, chance, size) for _ in range(chance.randint(1, 4))]
                polygons.append([ring[:: chance.choice((1, -1))] for ring in rings])
            shapes = scaled.overlay({"type": "MultiPolygon", "coordinates": polygons})
            each = [Polygon(rings[0]).difference(region(rings[1:])) for rings in polygons]
            lost = 4 * length([ring for rings in polygons for ring in rings])
            found = [Polygon(shape[0], shape[1:]) for shape in shapes]
            self.assertTrue(all(each.is_valid for each in found), polygons)
            self.assertLessEqual(unary_union(found).symmetric_difference(unary_union(each)).area, lost, polygons)

    def resolved(self, made, chance, size):
        """A contour that is valid by GEOS and runs counterclockwise."""
        while True:
            contour = made(chance, size)
            polygon = Polygon(contour)
            if polygon.is_valid and polygon.area > 0:
                return contour if polygon.exterior.is_ccw else contour[::-1]

    def test_relations_of_boxes(self):
        chance = random.Random(3)
        for _ in range(INPUTS // 10):
            one, two = box(chance, 4), box(chance, 4)
            a, b = Polygon(one), Polygon(two)
            told = polyover.relate([one], [two])
            expected = {
                "intersects": a.intersects(b),
                "interiors_intersect": a.intersection(b).area > 0,
                "touches": a.touches(b),
                "point_intersects": a.intersects(b) and a.intersection(b).geom_type in ("Point", "MultiPoint"),
                "within": a.within(b),
                "disjoint": a.disjoint(b),
                "covers": a.covers(b),
            }
            self.assertEqual(told, expected, (one, two))

    def located(self, contours, shape, points):
        """That points lie in the prepared contours as in the shape of GEOS."""
        there = prep(shape)
        expected = ["boundary" if there.intersects(it) else "outside" for it in map(Point, points)]
        for at, point in enumerate(points):
            if there.contains(Point(point)):
                expected[at] = "inside"
        prepared = polyover.Prepared(contours)
        self.assertEqual(prepared.locate(points), expected, contours)
        self.assertEqual(prepared.contains(points), [word == "inside" for word in expected])

    @with_library
    def test_prepared_stars(self):
        chance = random.Random(9)
        for _ in range(INPUTS // 10):
            size = chance.choice((10, 1000, 10**6))
            contour = self.resolved(star, chance, size)
            middles = [((x + u) // 2, (y + v) // 2) for (x, y), (u, v) in zip(contour, contour[1:])]
            free = [(chance.randint(-2 * size, 2 * size), chance.randint(-2 * size, 2 * size)) for _ in range(40)]
            self.located([contour], Polygon(contour), contour + middles + free)

    @with_library
    def test_prepared_boxes(self):
        chance = random.Random(10)
        points = [(x, y) for x in range(-1, 26) for y in range(-1, 26)]
        for _ in range(INPUTS // 40):
            contours = [box(chance, 12) for _ in range(chance.randint(1, 6))]
            self.located(contours, region(contours), points)

    @with_library
    def test_prepared_stars_that_cross(self):
        chance = random.Random(11)
        for _ in range(INPUTS // 20):
            contours = [self.resolved(star, chance, 1000) for _ in range(3)]
            points = [(chance.randint(-2000, 2000), chance.randint(-2000, 2000)) for _ in range(99)]
            # (chains of the arrangement stay within half a unit of their edges, in x and in y)
            far = [it for it in points if all(Polygon(each).exterior.distance(Point(it)) > 1 for each in contours)]
            self.located(contours, region(contours), far)

    def test_lines_in_boxes(self):
        chance = random.Random(4)
        for _ in range(INPUTS // 10):
            outline, line = box(chance, 9), [(chance.randint(-1, 19), 3), (chance.randint(-1, 19), 3)]
            if line[0] == line[1] or 3 in (outline[0][1], outline[2][1]):
                continue
            paths = polyover.clip([outline], [line])
            expected = Polygon(outline).intersection(MultiLineString([line]))
            self.assertEqual(MultiLineString(list(paths)).length if paths else 0, expected.length, (outline, line))

    def test_shapes_as_shapely_takes_them(self):
        shapes = polyover.overlay([[(0, 0), (9, 0), (9, 9), (0, 9)], [(1, 1), (1, 2), (2, 2), (2, 1)]])
        taken = shapely_shape(shapes)
        self.assertIsInstance(taken, MultiPolygon)
        self.assertEqual(taken.area, 80)
        self.assertEqual(polyover.Scaled(1).overlay(polyover.contours_of(taken)), shapes)
