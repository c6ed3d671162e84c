"""Truths, which Python takes as the numbers 1 and 0, are no coordinates and no sizes; options are truths."""

import unittest
from array import array

import polyover

from .rows import SQUARE
from .there import with_library

try:
    import numpy
except ImportError:
    numpy = None

TRUTHS = (True, False, *((numpy.bool_(True), numpy.bool_(False)) if numpy else ()))
CORNER = [(0, 4), (0, 0), (4, 0), (4, 4)]


class Truths(unittest.TestCase):
    """Where numbers stand, and where truths do."""

    def refused(self, words, call, *given, **named):
        """Tests that a call is refused as of a type that is not taken."""
        with self.assertRaisesRegex(TypeError, words) as found:
            call(*given, **named)
        self.assertIsInstance(found.exception, polyover.BadInput)

    def test_coordinates(self):
        for truth in TRUTHS:
            for point in ((truth, 3), (3, truth)):
                told, contours = ": contour 2, point 2: ", [SQUARE, [(0, 0), point, (4, 4)]]
                for owner in (polyover, polyover.Scaled(1)):
                    for name in ("overlay", "simplify", "edges"):
                        self.refused(f"^subject{told}", getattr(owner, name), contours)
                    self.refused(f"^clip{told}", owner.intersects, [SQUARE], contours)
                    self.refused(f"^shape{told}", owner.is_resolved, contours)
                    self.refused("^lines: line 1, point 2: ", owner.clip, [SQUARE], contours[1:])
                    self.refused("^points, point 2: ", owner.locate, [SQUARE], [(1, 1), point])

    @with_library
    def test_coordinates_of_what_is_held(self):
        for truth in TRUTHS:
            contours = [[(0, 0), (truth, 3), (4, 4)]]
            for call in (polyover.Prepared, polyover.Arrangement, polyover.trace, polyover.vectors):
                self.refused(": contour 1, point 2: ", call, contours)
            self.refused("^points, point 1: ", polyover.Prepared([SQUARE]).locate, [(3, truth)])
            self.refused("^points, point 1: ", polyover.Scaled(1).prepared([SQUARE]).locate, [(3, truth)])

    @unittest.skipIf(numpy is None, "no python3 here has NumPy (Debian's python3-numpy)")
    def test_arrays(self):
        for owner in (polyover, polyover.Scaled(1)):
            self.refused("^subject: contour 1, point 1: ", owner.overlay, [numpy.array(SQUARE, bool)])
            self.assertEqual(owner.overlay([numpy.array(SQUARE, numpy.uint8)]), [[CORNER]])

    @unittest.skipIf(numpy is None, "no python3 here has NumPy (Debian's python3-numpy)")
    def test_times(self):
        for kind in ("datetime64[ns]", "timedelta64[ns]"):
            for owner in (polyover, polyover.Scaled(1)):
                for given in ([numpy.array(SQUARE).astype(kind)], [SQUARE, numpy.array(SQUARE).astype(kind)]):
                    place = f"^subject: contour {len(given)}: an array of times in the place of a list of points$"
                    self.refused(place, owner.overlay, given)

    @unittest.skipIf(numpy is None, "no python3 here has NumPy (Debian's python3-numpy)")
    def test_arrays_that_are_no_lists(self):
        for owner in (polyover, polyover.Scaled(1)):
            for given, told in (
                (numpy.array(5), "^subject: array.5. in the place of a list of contours$"),
                ([numpy.array(5)], "^subject: contour 1: array.5. in the place of a list of points$"),
                ([memoryview(numpy.array(SQUARE, ">i8"))], "^subject: contour 1: memoryview: .*format"),
            ):
                with self.assertRaisesRegex(polyover.BadInput, told):
                    owner.overlay(given)
            self.assertEqual(owner.overlay([numpy.array(SQUARE, ">i8")]), [[CORNER]])

    def test_geometries(self):
        for truth in TRUTHS:
            ring = [(0, 0), (4, truth), (4, 4), (0, 0)]
            with self.assertRaisesRegex(polyover.BadInput, "^feature 1, polygon 1, ring 1, point 2: .* is no point"):
                polyover.Scaled(1).overlay({"type": "Polygon", "coordinates": [ring]})

    def test_sizes(self):
        calls = {
            "the minimum area True is no": lambda owner: owner.overlay([SQUARE], minimum_area=True),
            "cells": lambda owner: owner.tiles([SQUARE], True, 1),
            "the scale True is no": lambda _: polyover.Scaled(True),
            "the origin False is no": lambda _: polyover.Scaled(1, (0, False)),
            "True is no whole number of digits": lambda _: polyover.Scaled.of_digits(True),
            "True is no number": lambda _: polyover.Flat(array("q", [1, 1]), [True]),
        }
        for words, call in calls.items():
            for owner in (polyover, polyover.Scaled(1)):
                with self.assertRaisesRegex(polyover.BadInput, words):
                    call(owner)


class Options(unittest.TestCase):
    """A text as "no" would be true."""

    def test_what_is_no_truth(self):
        calls = {
            **dict.fromkeys(("ogc", "clockwise", "keep"), polyover.overlay),
            **dict.fromkeys(("invert", "boundary"), lambda shape, **how: polyover.clip(shape, [], **how)),
        }
        for name, call in calls.items():
            for value in ("no", "", None, 2, 1.0, []):
                with self.assertRaisesRegex(polyover.BadInput, f"^{name}: .* is neither true nor false$"):
                    call([SQUARE], **{name: value})
        for call in (polyover.slice, polyover.Scaled(1).overlay):
            with self.assertRaisesRegex(polyover.BadInput, "^clockwise: 'no' is neither true nor false$"):
                call([SQUARE], [], clockwise="no")
        with self.assertRaisesRegex(polyover.BadInput, "^closed: 'no' is neither true nor false$"):
            polyover.trace([SQUARE], closed="no")

    def test_what_is_one(self):
        for no in (False, 0, *TRUTHS[3:]):
            self.assertEqual(polyover.overlay([SQUARE], clockwise=no), [[CORNER]])
        for yes in (True, 1, *TRUTHS[2:3]):
            self.assertEqual(polyover.overlay([SQUARE], clockwise=yes), [[[(0, 0), (0, 4), (4, 4), (4, 0)]]])


if __name__ == "__main__":
    unittest.main()
