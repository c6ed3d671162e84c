"""The part of a layer that is near a feature: what commands ask of it, and that the answer is that of the whole."""

import random
import unittest
from unittest import mock

import polyover
from polyover import calls
from polyover.contour import points_in, row_of
from polyover.nearby import LinesNearby, Nearby

from .features import collection, feature, ran, square
from .test_given import winding

# squares of a unit, three apart, in a row of rows
SIDE = 20
GRID = [(3 * x, 3 * y) for x in range(SIDE) for y in range(SIDE)]
AREAS = collection(*(feature("Polygon", [square(x, y, x + 1, y + 1)], at=[x, y]) for x, y in GRID))


def box(left, low, right, high):
    """A contour round a rectangle."""
    return [(left, low), (right, low), (right, high), (left, high)]


def comb(count):
    """A contour of many teeth, whose back is far below them."""
    teeth = [point for x in range(0, 10 * count, 10) for point in ((x, 0), (x, 9000), (x + 5, 9000), (x + 5, 0))]
    return [*reversed(teeth), (0, -(10**6)), (10 * count, -(10**6))]


def part(shape, lines):
    """The part of a shape near lines."""
    return list(map(points_in, shape.part(list(map(row_of, lines)))))


def part_within(shape, contours):
    """The part of a shape that may fill what contours do."""
    return list(map(points_in, shape.part_within(list(map(row_of, contours)))))


def nearby(contours):
    """A shape of contours of points, to be asked for its parts."""
    return Nearby(map(row_of, contours))


class Asked(unittest.TestCase):
    """What a command asks."""

    def ran_and_asked(self, call, *given, words=()):
        """What a command leaves, and how many points of the other layer each of its calls of that name was given."""
        counts = []

        def counted(first, second, *args, real=getattr(calls, call), **options):
            other = first if call == "clip" else second
            counts.append(sum(map(len, other)))
            return real(first, second, *args, **options)

        with mock.patch.object(calls, call, counted):
            # (on a busy machine these may take longer than a second)
            status, left, said, _ = ran(*given, words=[*words, "--quiet"])
        self.assertEqual((status, said), (0, ""))
        return left["features"], counts

    def test_lines_meet_few_polygons(self):
        lines = [feature("LineString", [[x + 0.5, y - 1], [x + 0.5, y + 2]]) for x, y in GRID[:50]]
        far = [feature("LineString", [[x, -5], [x + 1, -5]]) for x in range(50)]
        found, counts = self.ran_and_asked("clip", "clip", AREAS, collection(*lines, *far))
        # (side by side in one call)
        self.assertEqual(counts, [4 * 50])
        (x, y), geometry = GRID[49], found[49]["geometry"]
        self.assertEqual(geometry["coordinates"], [[[x + 0.5, y], [x + 0.5, y + 1]]])

    def test_lines_outside(self):
        lines = collection(feature("LineString", [[0, -5], [1, -5]]))
        found, counts = self.ran_and_asked("clip", "clip", AREAS, lines, words=["--invert"])
        self.assertEqual((found[0]["geometry"]["coordinates"], counts), ([[[0, -5], [1, -5]]], [0]))

    def test_a_polygon_that_covers_the_feature_is_near(self):
        lake = collection(feature("Polygon", [square(-10, -10, 1000, 1000), square(-1, -1, 990, 990)]))
        lines = collection(feature("LineString", [[995, 995], [996, 995]]), feature("LineString", [[5, 5], [6, 5]]))
        found, _ = self.ran_and_asked("clip", "clip", lake, lines)
        self.assertEqual([each["geometry"]["coordinates"] for each in found], [[[[995, 995], [996, 995]]]])
        inner = collection(feature("Polygon", [square(995, 995, 996, 996)]), feature("Polygon", [square(5, 5, 6, 6)]))
        for rule, left in ("intersect", [995]), ("difference", [5]):
            found, _ = self.ran_and_asked("overlay", "overlay", inner, lake, words=["--rule", rule, "--keep"])
            self.assertEqual([min(each["geometry"]["coordinates"][0][0])[0] for each in found], left)

    def test_parcels_meet_few_polygons(self):
        parcels = [feature("Polygon", [square(x - 0.5, y, x + 0.5, y + 1)]) for x, y in GRID[:50]]
        given = "overlay", "overlay", collection(*parcels), AREAS
        found, counts = self.ran_and_asked(*given, words=["--rule", "intersect", "--keep"])
        self.assertEqual((len(found), counts), (50, [4 * 50]))
        away = collection(feature("Polygon", [square(-9, -9, -8, -8)]))
        given = "overlay", "overlay", away, AREAS
        self.assertEqual(self.ran_and_asked(*given, words=["--rule", "intersect", "--keep"]), ([], []))
        found, counts = self.ran_and_asked(*given, words=["--rule", "difference", "--keep"])
        self.assertEqual((len(found), counts), (1, [0]))

    def test_slices_meet_few_lines(self):
        fences = collection(*(feature("LineString", [[x - 1, y + 0.5], [x + 2, y + 0.5]]) for x, y in GRID[:50]))
        found, counts = self.ran_and_asked("slice", "slice", AREAS, fences)
        self.assertEqual((len(found), counts), (len(GRID) + 50, [2] * 50 + [0] * (len(GRID) - 50)))

    def test_far_teeth_of_a_comb_are_few_points(self):
        near = nearby([comb(5000)])
        for lines in ([[(25_002, 10), (25_004, 20)]], [[(25_002, 10), (25_302, 20)]]):
            # (of 20,002; there are 4 a tooth within 556 at most)
            self.assertLess(sum(map(len, part(near, lines))), 300)
        self.assertLess(sum(map(len, part_within(near, [box(25_000, 9, 25_100, 99)]))), 300)
        # (inside, far from all edges)
        self.assertLess(sum(map(len, part(near, [[(25_000, -5000), (25_010, -5000)]]))), 100)


class SameAnswers(unittest.TestCase):
    """The part winds near the feature as the whole does, and gives its answers."""

    def test_windings(self):
        chance, shape = random.Random(3), [comb(300), comb(200)[::-1], box(100, 100, 2900, 8000)]
        near = nearby(shape)
        for _ in range(200):
            x, y = chance.randint(-50, 3050), chance.randint(-500, 9500)
            line = [(x, y), (x + chance.randint(-50, 50), y + chance.randint(-50, 50)), (x + 1, y)]
            for found in (part(near, [line]), part_within(near, [line])):
                for p in line:
                    p = p[0] + 0.5, p[1] + 0.25
                    self.assertEqual(winding(found, p), winding(shape, p))

    def test_within_what_a_contour_fills(self):
        # (the inner one is far from each edge of the outer one)
        shape = nearby([box(0, 0, 9000, 9000), box(4000, 4000, 4010, 4010), box(20_000, 0, 20_010, 10)])
        self.assertEqual(len(part_within(shape, [box(-5, -5, 9005, 9005)])), 2)

    def test_overlays(self):
        chance = random.Random(4)
        boxes = [box(x, y, x + chance.randint(1, 900), y + chance.randint(1, 900))
                 for x, y in ((chance.randint(0, 20_000), chance.randint(0, 20_000)) for _ in range(900))]
        shape = [*boxes, comb(400)]
        near = nearby(shape)
        for _ in range(40):
            x, y = chance.randint(0, 20_000), chance.randint(0, 20_000)
            subject = [box(x, y, x + chance.randint(1, 3000), y + chance.randint(1, 3000)), box(x, -9, x + 9, -5)]
            for rule in ("intersect", "difference"):
                found = polyover.overlay(subject, part_within(near, subject), rule)
                self.assertEqual(found, polyover.overlay(subject, shape, rule))

    def test_slices(self):
        chance = random.Random(5)
        lines = [[(x, y), (x + chance.randint(1, 99), y), (x + chance.randint(1, 99), y + chance.randint(1, 99))]
                 for x, y in ((chance.randint(0, 5000), chance.randint(0, 5000)) for _ in range(400))]
        straight = [line[:2] for line in lines]
        near = LinesNearby(map(row_of, straight))
        for _ in range(40):
            x, y = chance.randint(0, 5000), chance.randint(0, 5000)
            shape = [box(x, y, x + chance.randint(1, 600), y + chance.randint(1, 600))]
            lines = list(map(points_in, near.part(list(map(row_of, shape)))))
            self.assertEqual(polyover.slice(shape, lines), polyover.slice(shape, straight))

    def test_in_order_and_without_points(self):
        near = nearby([[], *(box(x, 0, x + 1, 1) for x in range(0, 10_000, 5))])
        found = part(near, [[(4000, 0), (5000, 1)]])
        self.assertEqual(found, sorted(found))
        # (with the margin of 128 from 3875 to 5125)
        self.assertEqual((len(found), found[0][0], found[-1][0]), (251, (3875, 0), (5125, 0)))
        for nothing in (part(near, []), part(near, [[]]), part(nearby([]), [[(0, 0), (1, 1)]]), part_within(near, [])):
            self.assertEqual(nothing, [])


if __name__ == "__main__":
    unittest.main()
