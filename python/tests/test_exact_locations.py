"""Where points lie in shapes as they are given: by hand, and beside the definition in fractions.

`POLYOVER_MADE` says how many shapes are made, 300 if it is not set.
"""

import os
import random
import unittest
import warnings
from collections import Counter

import polyover

from .exactly import FILLED, location
from .features import collection, feature, ran
from .rows import SQUARE, UNSETTLED
from .test_exact_relations import made_move, made_shapes
from .there import ask_library_alone, asked_alone, older_library, with_library

COUNT = int(os.environ.get("POLYOVER_MADE", "300"))
LIMIT = 2**62 - 1
IN, ON, OUT = "inside", "boundary", "outside"
# lower edges of two triangles that cross in (1, 1/3), above (1, 0)
THIRDS = [[(0, 0), (3, 1), (0, 3)], [(0, 1), (3, -1), (3, 1)]]
AT_THIRDS = {(1, 0): OUT, (2, 0): IN, (1, 1): IN, (2, 1): IN, (0, 1): ON, (0, 0): ON, (3, 1): ON, (2, 2): OUT}
# upper edges that cross in (3, 6/7), below (3, 1); the second triangle runs the other way in TURNED
SEVENTHS = [[(0, 0), (7, -3), (7, 2)], [(-3, 0), (4, -4), (4, 1)]]
TURNED = [SEVENTHS[0], SEVENTHS[1][::-1]]
ASKED = [(3, 1), (3, 0), (4, 1), (4, 0), (5, 1), (-1, 0), (-3, 0), (7, 2)]
# (3, 1) is inside a sliver, whose lower edge another triangle crosses in (3, 6/7)
SLIVER = [[(0, 0), (7, 2), (5, 2)], SEVENTHS[1]]


class Definition(unittest.TestCase):
    """The definition, by hand."""

    def test_thirds(self):
        for point, expected in AT_THIRDS.items():
            self.assertEqual(location(THIRDS, "nonzero", point), expected)

    def test_spikes_and_cancelled_edges(self):
        self.assertEqual(location([[*SQUARE, *SQUARE[:1], (-4, 0)]], "nonzero", (-2, 0)), OUT)
        self.assertEqual(location([SQUARE, SQUARE[::-1]], "nonzero", SQUARE[0]), OUT)
        self.assertEqual(location([SQUARE, SQUARE], "positive", SQUARE[0]), ON)


@with_library
class ByHand(unittest.TestCase):
    """Locations that are told by hand."""

    def setUp(self):
        ask_library_alone(self)

    def located(self, shape, expected, fill="nonzero"):
        """That points lie where they should: a dictionary."""
        for solver in ({}, {"solver": "exact"}):
            self.assertEqual(polyover.Prepared(shape, fill, **solver).locate(list(expected)), list(expected.values()))

    def test_crossings_at_thirds(self):
        self.located(THIRDS, AT_THIRDS)
        self.located(THIRDS, {(1, 0): OUT, (2, 0): IN, (1, 1): ON, (2, 1): ON}, "evenodd")
        self.located(THIRDS, dict.fromkeys(AT_THIRDS, OUT), "negative")

    def test_crossings_at_sevenths(self):
        self.located(SEVENTHS, dict(zip(ASKED, [OUT, OUT, ON, ON, IN, IN, ON, ON])), "evenodd")
        self.located(SEVENTHS, dict(zip(ASKED, [OUT, IN, IN, IN, IN, IN, ON, ON])))
        self.located(TURNED, dict(zip(ASKED, [OUT, OUT, ON, ON, IN, OUT, OUT, ON])), "positive")
        self.located(TURNED, dict(zip(ASKED, [OUT, OUT, OUT, OUT, OUT, IN, ON, OUT])), "negative")

    def test_a_sliver_that_rounding_loses(self):
        self.located(SLIVER, {(3, 1): IN, (5, 2): ON, (6, 2): ON, (2, 1): OUT, (2, 0): IN})
        self.assertEqual(polyover.Prepared(SLIVER, solver="snapped").locate([(3, 1)]), [ON])

    def test_the_range(self):
        half = [[(-LIMIT, -LIMIT), (LIMIT, LIMIT - 1), (-LIMIT, LIMIT)]]
        self.located(half, {(0, 0): IN, (0, -1): OUT, (LIMIT, LIMIT - 1): ON, (LIMIT, LIMIT): OUT, (-1, -2): OUT})

    def test_what_rounds_do_not_settle(self):
        with self.assertRaises(polyover.NotSettled):
            polyover.Prepared(UNSETTLED, solver="rounds")
        for contour in UNSETTLED:
            self.located(UNSETTLED, {contour[0]: ON})

    def test_at_a_scale(self):
        tenths = polyover.Scaled(10)
        shape = [[(x / 10, y / 10) for x, y in contour] for contour in SEVENTHS]
        points = [(x / 10, y / 10) for x, y in ASKED]
        expected = [OUT, IN, IN, IN, IN, IN, ON, ON]
        self.assertEqual(tenths.prepared(shape).locate(points), expected)
        polygons = {"type": "MultiPolygon", "coordinates": [[[*each, each[0]]] for each in shape]}
        # (of a geometry what its polygons cover, whatever the fill rule)
        for fill in FILLED:
            self.assertEqual(tenths.prepared(polygons, fill).locate(points), expected)
        self.assertEqual(tenths.locate(polygons, points), expected)

    def test_the_command(self):
        polygons = [feature("Polygon", [[*map(list, each), list(each[0])]]) for each in THIRDS]
        places = collection(*(feature("Point", list(point)) for point in AT_THIRDS))
        _, left, said, _ = ran("locate", collection(*polygons), places, words=["--digits", "0"])
        told = [each["properties"]["location"] for each in left["features"]]
        self.assertEqual((told, said), (list(AT_THIRDS.values()), ""))


@with_library
class Library(unittest.TestCase):
    """The library beside the definition."""

    def test_made_shapes(self):
        chance, seen = random.Random(14), Counter()
        for _ in range(COUNT):
            shape = made_shapes(chance)[0]
            points = [point for contour in shape for point in contour[:3]]
            points += [(chance.randint(-1, 9), chance.randint(-1, 9)) for _ in range(6)]
            move = made_move(chance, LIMIT)
            for fill in FILLED:
                expected = [location(shape, fill, point) for point in points]
                seen.update(expected)
                self.assertEqual(polyover.Prepared(shape, fill).locate(points), expected, (fill, shape, points))
                moved = polyover.Prepared(move(shape), fill)
                self.assertEqual(moved.locate(move([points])[0]), expected, (fill, shape, points))
        self.assertGreater(min(seen[word] for word in (IN, ON, OUT)), COUNT // 2)


class Others(unittest.TestCase):
    """Libraries that are older, and the program."""

    @with_library
    def test_an_older_library(self):
        ask_library_alone(self)
        with older_library("polyover_prepare_exact"):
            for owner in (polyover.Prepared, polyover.Scaled(1).prepared):
                with self.assertWarnsRegex(polyover.PolyoverWarning, "the library is older") as caught:
                    self.assertEqual(owner(SLIVER).locate([(3, 1)]), [ON])
                self.assertEqual(caught.filename, __file__)
                with self.assertRaisesRegex(polyover.LibraryMissing, "contours as they are given"):
                    owner(SLIVER, solver="exact")
                with warnings.catch_warnings():
                    warnings.simplefilter("error")
                    self.assertEqual(owner(SLIVER, solver="snapped").locate([(3, 1)]), [ON])

    def test_the_program_alone(self):
        asked_alone(self, POLYOVER_PROGRAM="/nowhere/polyover")
        for owner in (polyover.Prepared, polyover.Scaled(1).prepared):
            with self.assertRaisesRegex(polyover.LibraryMissing, "contours as they are given"):
                owner([SQUARE], solver="exact")


if __name__ == "__main__":
    unittest.main()
