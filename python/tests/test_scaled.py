"""Floats on a grid of whole numbers."""

import random
import unittest
from decimal import Decimal
from fractions import Fraction
from itertools import product

import polyover
from polyover.text import LIMIT

from .rows import NESTED

try:
    import numpy
except ImportError:
    numpy = None


class ScaledFloats(unittest.TestCase):
    """What is taken, and what is given back."""

    def test_half_a_unit_is_lost_at_most(self):
        scaled = polyover.Scaled.of_digits(2, (10, -10))
        self.assertEqual(scaled.lost, 0.005)
        for value in (0.1, 1.005, 123.456, -7.7777):
            whole = scaled.whole_point((value, value))
            self.assertLessEqual(abs(scaled.point(whole)[0] - value), scaled.lost * 1.0000001)

    def test_exactly_as_by_fractions(self):
        chance = random.Random(6)
        starts = (0, Fraction(1, 3), -0.1, 10**9 + 0.5)
        scales = (1, 10**7, Fraction(1, 7), 0.3, 2.0**40, Fraction(1, 10**9))
        for start, scale in product(starts, scales):
            scaled = polyover.Scaled(scale, (start, 0))
            values = [chance.uniform(-1000, 1000) for _ in range(20)] + [chance.randint(-9, 9) / 2 for _ in range(20)]
            for value in [*values, 5e-324, -1e300, 7, Fraction(5, 3), Decimal("0.5")]:
                whole = round((Fraction(value) - Fraction(start)) * Fraction(scale))
                self.assertEqual(scaled.whole_point((value, 0))[0], whole)
            for whole in (0, 1, -1, 3, LIMIT, -LIMIT, *(chance.randint(-(10**12), 10**12) for _ in range(20))):
                value = float(whole / Fraction(scale) + Fraction(start))
                self.assertEqual(scaled.point((whole, 0))[0], value)

    def test_texts_are_no_numbers(self):
        scaled = polyover.Scaled(1)
        for contour, told in (([("0.5", 0), (4, 0), (4, 4)], ".* is no point of two finite"),
                              (["00", "40", "44"], "str in the place of a point")):
            with self.assertRaisesRegex(polyover.BadInput, f"subject: contour 1, point 1: {told}"):
                scaled.overlay([contour])
        with self.assertRaisesRegex(polyover.BadInput, "the scale '10' is no finite number"):
            polyover.Scaled("10")

    def test_cells_that_are_too_small(self):
        for width, height in ((0.04, 1), (1, 0), (1, -3)):
            with self.assertRaisesRegex(polyover.BadInput, f"cells of {width} by {height} do not fit: at least a unit"):
                polyover.Scaled(10).tiles([[(0, 0), (1, 0), (1, 1)]], width, height)
        with self.assertRaisesRegex(polyover.BadInput, "^cells of nan by '2': no two finite numbers$"):
            polyover.Scaled(10).tiles([[(0, 0), (1, 0), (1, 1)]], float("nan"), "2")

    def test_digits_and_origins(self):
        self.assertEqual(polyover.Scaled.of_digits(-1).scale, Fraction(1, 10))
        for digits in (2.5, "3", None):
            with self.assertRaisesRegex(polyover.BadInput, "is no whole number of digits"):
                polyover.Scaled.of_digits(digits)
        for digits in (1001, -1001, 2**60):
            with self.assertRaisesRegex(polyover.BadInput, f"^{digits} digits: at most 1000, and from -1000 on$"):
                polyover.Scaled.of_digits(digits)
        for origin in (None, 3, (0, 0, 0), (1,)):
            with self.assertRaisesRegex(polyover.BadInput, "is no point of two numbers"):
                polyover.Scaled(1, origin)

    @unittest.skipIf(numpy is None, "no python3 here has NumPy (Debian's python3-numpy)")
    def test_columns_are_the_same_numbers(self):
        chance, far = random.Random(8), 2.0**60
        for start, scale in product((0, -0.1, 1e6, Fraction(1, 3)), (10**7, 1, Fraction(1, 8), 0.3, 2.0**40)):
            scaled = polyover.Scaled(scale, (start, 0))
            values = [chance.uniform(-180, 180) for _ in range(900)] + [chance.randint(-99, 99) / 2 for _ in range(300)]
            values += [round(chance.uniform(-99, 99), 8) for _ in range(300)] + [far, -far, 5e-324, -0.0, 1e300, 0.5]
            whole = [round((Fraction(value) - Fraction(start)) * Fraction(scale)) for value in values]
            found = scaled.whole([[(value, value) for value in values[:9]], [(value, 0.0) for value in values[9:]]])
            self.assertEqual([x for path in found for x, _ in path], whole)
        with self.assertRaisesRegex(polyover.BadInput, "subject: contour 1, point 100: .*nan"):
            polyover.Scaled(1).overlay([[(0.0, 1.0)] * 99 + [(0.0, float("nan"))]])

    def test_lists_that_are_gone_over_once(self):
        points = [(0.0, 0.0), (0.5, 0.0), (0.5, 0.25)]
        self.assertEqual(polyover.Scaled(4).whole(iter([iter(points)])), [[(0, 0), (2, 0), (2, 1)]])
        self.assertEqual(len(polyover.Scaled(4).overlay(iter([iter(points)]))), 1)

    def test_whole_numbers_come_back(self):
        scaled = polyover.Scaled(1000)
        square = [(0.0, 0.0), (0.25, 0.0), (0.25, 0.5), (0.0, 0.5)]
        self.assertEqual(scaled.overlay([square]), [[[(0.0, 0.5), (0.0, 0.0), (0.25, 0.0), (0.25, 0.5)]]])
        self.assertEqual(scaled.locate([square], [(0.1, 0.1), (0.25, 0.1)]), ["inside", "boundary"])

    def test_links_edges_and_simple_contours(self):
        scaled, (outer, hole, island) = polyover.Scaled(4), [[(x / 4, y / 4) for x, y in each] for each in NESTED]
        shapes, links = scaled.hierarchy([outer, hole, island], (), "subject", "evenodd")
        self.assertEqual((len(shapes), max(shapes[0][0]), links), (2, (2.25, 2.25), [(0, 1, 1)]))
        self.assertEqual(scaled.edges([outer])[0], ((0.0, 0.0), (0.0, 2.25), 2))
        self.assertEqual(scaled.simplify([island]), [[island]])
        self.assertEqual(scaled.simplify([island[::-1]]), [[island]])
        self.assertTrue(scaled.is_resolved([outer, hole]))
        self.assertFalse(scaled.is_resolved([outer, [(0, 0), (1, 1), (1, 0), (0.25, 0.75)]]))

    def test_cells_have_a_node_at_the_origin(self):
        scaled = polyover.Scaled(100, (0.5, 0))
        square = [(0.0, 0.0), (1.0, 0.0), (1.0, 0.5), (0.0, 0.5)]
        left, right = scaled.tiles([square], 0.75, 0.5)
        self.assertEqual({x for x, _ in left[0]} | {x for x, _ in right[0]}, {0.0, 0.5, 1.0})
        with self.assertRaisesRegex(polyover.BadInput, "do not fit"):
            scaled.tiles([square], 0.001, 0.5)

    def test_what_is_no_number(self):
        for value in (float("nan"), float("inf"), "one"):
            with self.assertRaises(polyover.BadInput):
                polyover.Scaled(1).overlay([[(value, 0), (1, 0), (1, 1)]])
        with self.assertRaises(polyover.BadInput):
            polyover.Scaled(0)


class MinimumArea(unittest.TestCase):
    """The smallest area is in squares of the floats' unit."""

    UNIT = [(0, 0), (1, 0), (1, 1), (0, 1)]
    # (of an area of 2 and a half)
    TRIANGLE = [(0, 0), (5, 0), (0, 1)]

    def kept(self, scaled, contour, area):
        """How many shapes each call keeps of a contour."""
        (count,) = {
            len(scaled.overlay([contour], [], "subject", minimum_area=area)),
            len(scaled.hierarchy([contour], [], "subject", minimum_area=area)[0]),
            len(scaled.simplify([contour], minimum_area=area)),
        }
        return count

    def test_in_the_unit_of_the_floats(self):
        for digits in (0, 2, 6, -1):
            scaled, side = polyover.Scaled.of_digits(digits), 10 if digits < 0 else 1
            contour = [(x * side, y * side) for x, y in self.UNIT]
            for area, count in ((0, 1), (side**2, 1), (2 * side**2, 0)):
                self.assertEqual(self.kept(scaled, contour, area), count, (digits, area))

    def test_the_nearest_number_of_squares(self):
        whole = polyover.Scaled(1)
        self.assertEqual([self.kept(whole, self.TRIANGLE, area) for area in (2.5, 2.51, 2.6, 3)], [1, 0, 0, 0])
        # (half a square smaller)
        self.assertEqual([self.kept(whole, [(0, 0), (2, 0), (2, 1), (0, 1)], area) for area in (2.5, 2.51)], [1, 0])
        for area, squares in ((0, 0), (0.5, 0), (0.51, 1), (1.5, 1), (2, 2), (2.5, 2), (Fraction(8, 3), 3), (3.5, 3)):
            self.assertEqual(whole.area(area), squares)

    def test_floats_that_are_a_little_more_than_what_they_stand_for(self):
        self.assertGreater(Fraction(0.07), Fraction(7, 100))
        strip = [(0, 0), (0.7, 0), (0.7, 0.1), (0, 0.1)]
        self.assertEqual([self.kept(polyover.Scaled(10), strip, area) for area in (0.07, 0.08)], [1, 0])
        self.assertEqual(polyover.Scaled.of_digits(7).area(Decimal("0.1")), polyover.Scaled.of_digits(7).area(0.1))

    def test_faults(self):
        scaled = polyover.Scaled.of_digits(6)
        for area in (-1, -0.001, float("nan"), float("inf"), "x", None, 1e27):
            with self.assertRaisesRegex(polyover.BadInput, "^the minimum area "):
                scaled.overlay([self.UNIT], minimum_area=area)
        self.assertEqual(scaled.overlay([self.UNIT], minimum_area=1e26), [])
        for call in (polyover.overlay, polyover.hierarchy, polyover.simplify):
            with self.assertRaisesRegex(polyover.BadInput, "^the minimum area 1.5 is no whole number$"):
                call([self.UNIT], minimum_area=1.5)
