"""Rings of GeoJSON: closed or not, in either direction, tiny and far from the origin, with holes that overlap."""

import unittest
import warnings

import polyover
from polyover.contour import double_area
from polyover.text import FILLS

from .features import collection, feature, ran, square

SQUARE = [[0, 0], [4, 0], [4, 4], [0, 4]]


def polygon(*rings):
    """A geometry of one polygon."""
    return {"type": "Polygon", "coordinates": list(rings)}


def area_of(shapes):
    """The area of shapes."""
    return sum(double_area(contour) for shape in shapes for contour in shape) / 2


def silently(call, *given, **named):
    """What a call answers, and what it says by warnings."""
    with warnings.catch_warnings(record=True) as told:
        warnings.simplefilter("always")
        return call(*given, **named), [str(each.message) for each in told]


class Closed(unittest.TestCase):
    """Rings are taken closed or not."""

    def test_a_ring_that_is_not_closed_keeps_its_last_corner(self):
        corners = [(0, 0), (4, 0), (4, 4), (0, 4)]
        for ring in (SQUARE, SQUARE + SQUARE[:1]):
            self.assertEqual(polyover.contours_of(polygon(ring)), [corners])

    def test_the_first_point_again_with_another_height_is_no_end(self):
        ring = [[0, 0, 1], [4, 0, 1], [4, 4, 1], [0, 0, 2]]
        (contour,), told = silently(polyover.contours_of, polygon(ring))
        self.assertEqual(double_area(contour), 16)
        self.assertEqual(len(told), 1)

    def test_too_few_points_are_a_fault_with_its_place(self):
        short = [[0, 0], [1, 1], [0, 0]]
        things = collection(feature("Polygon", [SQUARE]), feature("MultiPolygon", [[SQUARE], [SQUARE, short]]))
        with self.assertRaisesRegex(polyover.BadInput, "feature 2, polygon 2, ring 2: 2 points: a ring takes"):
            polyover.contours_of(things)
        contours, told = silently(polyover.contours_of, things, skip_invalid=True)
        self.assertEqual(len(contours), 3)
        self.assertEqual(told, ["1 ring or line with too few points is skipped "
                                "(the first: feature 2, polygon 2, ring 2)"])

    def test_lines_too(self):
        with self.assertRaisesRegex(polyover.BadInput, "feature 1, line 1: 1 points: a line takes at least two"):
            polyover.lines_of({"type": "LineString", "coordinates": [[0, 0]]})
        lines = {"type": "MultiLineString", "coordinates": [[[0, 0]], [[0, 0], [0, 0]]]}
        found, told = silently(polyover.lines_of, lines, skip_invalid=True)
        self.assertEqual((found, len(told)), ([[(0, 0), (0, 0)]], 1))

    def test_skipped_on_the_command_line(self):
        bad = collection(feature("MultiPolygon", [[[[0, 0], [1, 1]]], [square(0, 0, 2, 2)]]))
        good = collection(feature("Polygon", [square(5, 5, 6, 6)]))
        status, left, said, there = ran("overlay", bad, good)
        self.assertEqual((status, left, there), (1, None, ["a.geojson", "b.geojson"]))
        self.assertIn("a.geojson: feature 1, polygon 1, ring 1: 2 points: ", said)
        status, left, said, _ = ran("overlay", bad, good, words=["--skip-invalid"])
        self.assertEqual((status, len(left["features"][0]["geometry"]["coordinates"])), (0, 2))
        self.assertIn("1 ring or line with too few points is skipped", said)


class Direction(unittest.TestCase):
    """Directions are told exactly."""

    def test_small_holes_in_web_mercator(self):
        # (a hole of 5 cm; products of such floats are a hundredth apart, and twice its area is half of that)
        x, y = 15286417.3, 7129837.7
        for at in range(200):
            left, low, size = x + at * 0.37, y + at * 0.91, 0.05
            hole = [[left, low], [left + size, low], [left + size, low + size], [left, low + size], [left, low]]
            given = polygon(square(x - 10, y - 10, x + 200, y + 300), hole if at % 2 else hole[::-1])
            scaled = polyover.Scaled.of_digits(4)
            shapes = scaled.overlay(polyover.contours_of(given))
            self.assertEqual([len(shape) for shape in shapes], [2], at)

    def test_tiny_rings_far_away(self):
        for at in range(100):
            x, y, size = 1286417.3 + at * 0.37, 6129837.7 + at * 0.91, 0.01
            ring = [[x, y], [x + size, y], [x + size, y + size], [x, y + size]]
            for given in (ring, ring[::-1]):
                shapes = polyover.Scaled.of_digits(4).overlay(polyover.contours_of(polygon(given)), fill="positive")
                self.assertEqual(len(shapes), 1, at)

    def test_at_the_ends_of_the_range(self):
        far = 2**62 - 1
        ring = [(far, far), (far - 1, far), (far, far - 1)]
        (contour,) = polyover.contours_of(polygon(ring[::-1]))
        self.assertEqual(double_area(contour), 1)
        beyond = [(x << 900, y << 900) for x, y in ring]
        self.assertEqual(double_area(polyover.contours_of(polygon(beyond[::-1]))[0]), 1 << 1800)
        small = [(0.0, 0.0), (5e-324, 0.0), (0.0, 5e-324)]
        self.assertEqual(polyover.contours_of(polygon(small[::-1])), [small[::-1][::-1]])

    def test_what_collapses_is_counted(self):
        given = polygon(square(0, 0, 9, 9), square(1, 1, 1.01, 1.01), square(2, 2, 3, 3))
        thin = {"type": "MultiPolygon", "coordinates": [given["coordinates"], [square(5, 5, 5.01, 99)]]}
        shapes, told = silently(polyover.Scaled(1).overlay, thin)
        self.assertEqual(area_of(shapes), 80)
        self.assertEqual(told, [
            "1 hole collapses to a line or a point, and is left out (the first: feature 1, polygon 1, ring 2)",
            "1 polygon collapses to a line or a point, and is left out (the first: feature 1, polygon 2, ring 1)",
        ])

    def test_decided_at_the_scale(self):
        # (exactly it runs clockwise, and counterclockwise once rounded)
        ring = [[0, 0], [10, 0.6], [20, 1.4], [10, 0.75], [5, 0.45]]
        scaled = polyover.Scaled(1)
        (contour,) = scaled.contours_of(polygon(ring))
        whole = [scaled.whole_point(point) for point in contour]
        self.assertGreater(double_area(whole), 0)


class Holes(unittest.TestCase):
    """A polygon covers what its outline does and none of its holes."""

    def covered(self, *polygons):
        """The area that polygons cover."""
        contours, told = silently(polyover.contours_of, {"type": "MultiPolygon", "coordinates": list(polygons)})
        self.assertEqual(told, [])
        return area_of(polyover.overlay(contours))

    def test_holes_that_overlap(self):
        outline = square(0, 0, 10, 10)
        self.assertEqual(self.covered([outline, square(1, 1, 5, 5), square(3, 3, 7, 7)]), 100 - 28)
        self.assertEqual(self.covered([outline, square(1, 1, 5, 5), square(1, 1, 5, 5)]), 84)
        self.assertEqual(self.covered([outline, square(1, 1, 9, 9), square(3, 3, 7, 7)]), 36)

    def test_holes_outside_of_the_outline(self):
        self.assertEqual(self.covered([square(0, 0, 4, 4), square(10, 0, 14, 4)]), 16)
        self.assertEqual(self.covered([square(0, 0, 4, 4), square(2, 0, 6, 4)]), 8)
        self.assertEqual(self.covered([square(0, 0, 4, 4), square(-1, -1, 5, 5)]), 0)

    # the point (2, 1) of the hole is 1/5 above the edge to (5, 2), which then runs through it: 1/2 more is covered
    OUTLINE, HOLE = [[0, 0], [0, -4], [5, -4], [5, 2], [0, 0]], [[2, 1], [1, -2], [3, -2], [2, 1]]

    def test_a_hole_that_sticks_out_by_less_than_half_a_unit(self):
        bad = [self.OUTLINE, self.HOLE]
        self.assertEqual(self.covered(bad), 25.5 - 3)
        beside = [[square(20 * at, 0, 20 * at + 9, 9), square(20 * at + 1, 1, 20 * at + 2, 2)] for at in range(1, 9)]
        self.assertEqual(self.covered(*beside[:5], bad, *beside[5:]), 8 * 80 + 22.5)

    def test_nothing_of_such_a_hole_is_covered(self):
        bad = polygon(self.OUTLINE, self.HOLE)
        beside = feature("Polygon", [square(8, 8, 9, 9)])
        for subject in (bad, collection(feature("Polygon", bad["coordinates"]), beside)):
            for fill in FILLS:
                scaled = polyover.Scaled(1)
                self.assertEqual(scaled.overlay(subject, polygon(self.HOLE), "intersect", fill), [])
                self.assertTrue(scaled.touches(subject, polygon(self.HOLE), fill))
                self.assertEqual(scaled.locate(subject, [(2, 0), (2, 1), (0, -1)]), ["outside", "boundary", "boundary"])

    def test_far_beyond_the_range(self):
        # (a hole that lies beside the outline is no part of it, and one that crosses itself winds round two triangles)
        holes = [(6, 0), (8, 0), (8, 2), (6, 2)], [(1, 1), (3, 3), (3, 1), (1, 3)]
        for far in (1 << 70, -(1 << 200) + 1):
            outline, beside, bow = ([(x + far, y - far) for x, y in ring] for ring in (SQUARE, *holes))
            for others in ([], [[square(0, 0, 1, 1)]]):
                polygons = {"type": "MultiPolygon", "coordinates": [[outline, beside], *others]}
                contours, told = silently(polyover.contours_of, polygons)
                self.assertEqual([sorted(contour) for contour in contours[:1]], [sorted(outline)])
                self.assertEqual((len(contours), told), (1 + len(others), []))
                polygons["coordinates"][0] = [outline, bow]
                contours, told = silently(polyover.contours_of, polygons)
                self.assertIn("1 ring crosses or overlaps itself", told[0])
                self.assertEqual(sum(map(double_area, contours[: len(contours) - len(others)])), 2 * (16 - 2))

    def test_beside_others(self):
        other = [square(20, 0, 30, 10), square(22, 2, 24, 4)]
        overlapping = [square(0, 0, 10, 10), square(1, 1, 5, 5), square(3, 3, 7, 7)]
        island = [square(4, 4, 5, 5)]
        self.assertEqual(self.covered(other, overlapping, island), 96 + 72 + 1)

    def test_a_polygon_over_the_hole_of_another_one(self):
        self.assertEqual(self.covered([square(0, 0, 10, 10), square(1, 1, 5, 5)], [square(0, 0, 3, 3)]), 84 + 4)

    def test_a_ring_that_crosses_itself_beside_another_polygon(self):
        # (one of its halves winds by -1, and with the square, by 1, that would be 0)
        crossed = [[0, 0], [4, 4], [4, 0], [0, 4], [0, 0]]
        contours, told = silently(
            polyover.contours_of, {"type": "MultiPolygon", "coordinates": [[crossed], [square(0, 0, 4, 4)]]}
        )
        self.assertEqual(area_of(polyover.overlay(contours)), 16)
        self.assertIn("1 ring crosses or overlaps itself", told[0])

    def test_a_ring_that_crosses_itself_alone(self):
        crossed = [[0, 0], [4, 4], [4, 0], [0, 4], [0, 0]]
        for fill in ("nonzero", "positive"):
            shapes, told = silently(polyover.Scaled(1).overlay, polygon(crossed), fill=fill)
            self.assertEqual((area_of(shapes), len(told)), (8, 1))

    def test_a_ring_that_touches_itself(self):
        touching = [[0, 0], [2, 2], [4, 0], [4, 4], [2, 2], [0, 4]]
        self.assertEqual(self.covered([touching], [square(0, 0, 4, 4)]), 16)
        self.assertEqual(self.covered([touching], [square(9, 0, 10, 1)]), 9)


if __name__ == "__main__":
    unittest.main()
