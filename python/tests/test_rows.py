"""The rows of docs/PROGRAM.md through Python: what the program prints, once printed."""

import unittest

import polyover
from polyover.contour import double_area
from polyover.text import printed_path, printed_shapes

from .rows import BAR, FRAME, HALL, NESTED, OTHER, SQUARE, WALLS
from .there import ask_program_alone, with_program


class Rows(unittest.TestCase):
    """A row for each call."""

    def test_union_with_two_holes(self):
        shapes = polyover.overlay(FRAME, BAR, "union", "evenodd", ogc=False)
        expected = "shape\n0 3 0 2 1 2 1 0 4 0 4 2 5 2 5 3 4 3 4 5 1 5 1 3\n2 1 2 2 3 2 3 1\n2 3 2 4 3 4 3 3\n"
        self.assertEqual(printed_shapes(shapes), expected)

    def test_each_rule(self):
        areas = {"subject": 16, "clip": 16, "intersect": 4, "union": 28, "difference": 12, "xor": 24}
        areas["inverse_difference"] = 12
        for rule, expected in areas.items():
            shapes = polyover.overlay([SQUARE], [OTHER], rule)
            doubled = sum(double_area(contour) for shape in shapes for contour in shape)
            self.assertEqual(doubled, 2 * expected, rule)

    def test_options(self):
        self.assertEqual(printed_shapes(polyover.overlay([SQUARE], clockwise=True)), "shape\n0 0 0 4 4 4 4 0\n")
        bent = [[(0, 0), (2, 0), (4, 0), (4, 4), (0, 4)]]
        self.assertEqual(polyover.overlay(bent, BAR, "difference", keep=False, minimum_area=5)[0][0][0], (0, 2))
        self.assertEqual(polyover.overlay([SQUARE], minimum_area=17), [])
        self.assertEqual(len(polyover.overlay([SQUARE], minimum_area=16)), 1)

    def test_hierarchy(self):
        shapes, links = polyover.hierarchy(NESTED, (), "subject", "evenodd")
        self.assertEqual(printed_shapes(shapes), "shape\n0 9 0 0 9 0 9 9\n1 1 1 8 8 8 8 1\nshape\n2 7 2 2 7 2 7 7\n")
        self.assertEqual(links, [(0, 1, 1)])

    def test_simplify(self):
        crossed, halves = [(0, 0), (4, 4), (4, 0), (0, 4)], "shape\n0 4 0 0 2 2\nshape\n4 4 2 2 4 0\n"
        self.assertEqual(printed_shapes(polyover.simplify([crossed])), halves)
        self.assertEqual(polyover.simplify([crossed], minimum_area=5), [])
        joined = "shape\n0 4 0 0 4 0 4 2 6 2 6 6 2 6 2 4\n"
        self.assertEqual(printed_shapes(polyover.simplify([SQUARE, OTHER])), joined)

    def test_simple_contours_stay_as_they_are(self):
        turned = [(4, 4), (0, 4), (0, 0), (4, 0)]
        for options in ({}, {"keep": True}, {"ogc": False}, {"fill": "positive"}, {"fill": "evenodd"}):
            self.assertEqual(polyover.simplify([turned], **options), [[turned]])
        self.assertEqual(polyover.simplify([turned[::-1]]), [[turned]])
        self.assertEqual(polyover.simplify([turned], clockwise=True), [[turned[::-1]]])
        self.assertEqual(polyover.simplify([SQUARE], "negative"), [])
        cut = polyover.overlay([SQUARE], (), "subject")
        for given in ([*SQUARE, (0, 2)], [*SQUARE, (0, 4)], [*SQUARE, (0, 0)]):
            self.assertEqual(polyover.simplify([given]), cut)
        self.assertEqual(polyover.simplify([SQUARE, []]), cut)
        self.assertEqual(polyover.simplify([SQUARE], minimum_area=16), cut)

    def test_resolved(self):
        touching, crossed = [(0, 0), (4, 0), (2, 2), (4, 4), (0, 4), (2, 2)], [(0, 0), (4, 4), (4, 0), (0, 4)]
        for contours in ([], [[]], [SQUARE], [SQUARE, OTHER], [touching]):
            self.assertTrue(polyover.is_resolved(contours), contours)
        for contours in ([crossed], [SQUARE, crossed], [[(0, 0), (4, 0)]], [[(0, 0), (4, 0), (4, 4), (4, 0)]]):
            self.assertFalse(polyover.is_resolved(contours), contours)

    def test_edges(self):
        needle = [(0, 0), (10, 4), (10, 0), (0, 3)]
        expected = [
            ((0, 0), (0, 3), 2),
            ((0, 0), (4, 2), 1),
            ((0, 3), (4, 2), 2),
            ((4, 2), (10, 0), 1),
            ((4, 2), (10, 4), 2),
            ((10, 0), (10, 4), 1),
        ]
        self.assertEqual(polyover.edges([needle]), expected)

    def test_relations(self):
        told = polyover.relate([[(0, 0), (2, 0), (2, 2), (0, 2)]], [[(2, 2), (4, 2), (4, 4), (2, 4)]], "evenodd")
        self.assertEqual([name for name, holds in told.items() if holds], ["intersects", "touches", "point_intersects"])

    def test_clip(self):
        shape, line = [[(-10, -10), (-10, 10), (10, 10), (10, -10)]], [[(0, -15), (0, 15)]]
        self.assertEqual("".join(map(printed_path, polyover.clip(shape, line))), "0 -10 0 10\n")
        inverted = polyover.clip(shape, line, invert=True)
        self.assertEqual("".join(map(printed_path, inverted)), "0 -15 0 -10\n0 10 0 15\n")

    def test_slice(self):
        rooms = (
            "shape\n4 0 4 4 0 4 0 0\nshape\n4 4 4 8 0 8 0 4\n"
            "shape\n8 0 8 5 8 8 4 8 4 4 4 0\n5 3 5 5 7 5 7 3\n"
            "shape\n10 0 12 0 12 5 8 5 8 0\nshape\n12 5 12 8 8 8 8 5\n"
        )
        self.assertEqual(printed_shapes(polyover.slice(HALL, WALLS, "evenodd")), rooms)

    def test_tiles(self):
        bent = [[(0, 0), (3, 0), (3, 1), (1, 1), (1, 3), (0, 3)]]
        cut = "shape\n2 0 2 1 1 1 1 3 0 3 0 0\nshape\n3 0 3 1 2 1 2 0\n"
        self.assertEqual(printed_shapes(polyover.tiles(bent, 2, 5)), cut)
        self.assertEqual(len(polyover.tiles([SQUARE], 2, 2, "evenodd")), 4)
        self.assertEqual(polyover.tiles([SQUARE], 2, 2, "negative"), [])
        self.assertEqual(polyover.tiles([], 1, 1), [])

    def test_locations(self):
        points = [(2, 2), (4, 1), (9, 9)]
        self.assertEqual(polyover.locate([SQUARE], points), ["inside", "boundary", "outside"])

    def test_nothing(self):
        self.assertEqual(polyover.overlay([], []), [])
        self.assertEqual(polyover.overlay([[]], [[(1, 1)]]), [])
        self.assertEqual(polyover.locate([SQUARE], []), [])
        self.assertEqual(polyover.clip([SQUARE], []), [])


@with_program
class RowsOfTheProgram(Rows):
    """The same, where the program is asked, which the library takes the place of."""

    def setUp(self):
        ask_program_alone(self)
        self.assertEqual(polyover.backend(), "program")
