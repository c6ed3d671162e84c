"""Rules and relations one by one, under the names of other libraries; what `Scaled` is, and what faults count from."""

import pickle
import unittest
from fractions import Fraction

import polyover

from .features import square
from .rows import OTHER, SQUARE

try:
    from shapely import wkt
    from shapely.geometry import Point, Polygon, shape as shapely_shape
    from shapely.ops import unary_union
except ImportError:
    Polygon = None

RULES = {"intersection": "intersect", "union": "union", "difference": "difference", "symmetric_difference": "xor"}
RELATIONS = ("intersects", "interiors_intersect", "touches", "point_intersects", "within", "disjoint", "covers")
INNER, BESIDE, AWAY = ([(a, b), (c, b), (c, d), (a, d)] for a, b, c, d in ((1, 1, 2, 2), (4, 0, 6, 4), (9, 9, 10, 10)))
AREA = {"type": "Polygon", "coordinates": [square(0, 0, 2, 2)]}


def area(shapes):
    """The area of shapes."""
    contours = [contour for shape in shapes for contour in shape]
    return sum(a[0] * b[1] - b[0] * a[1] for c in contours for a, b in zip(c, [*c[1:], c[0]])) / 2


class Rules(unittest.TestCase):
    """Overlays by name."""

    def test_areas_by_hand(self):
        # (of two squares of 16 whose meeting is one of 4)
        areas = {"intersection": 4, "union": 28, "difference": 12, "symmetric_difference": 24}
        for owner in (polyover, polyover.Scaled(1), polyover.Scaled(3, (0.5, -7))):
            for name, found in areas.items():
                shapes = getattr(owner, name)([SQUARE], [OTHER])
                self.assertAlmostEqual(area(shapes), found)
                self.assertEqual(shapes, owner.overlay([SQUARE], [OTHER], RULES[name]))

    def test_options(self):
        for owner in (polyover, polyover.Scaled(1)):
            self.assertEqual(owner.intersection([SQUARE], [OTHER], minimum_area=5), [])
            self.assertEqual(area(owner.union([SQUARE], [OTHER], clockwise=True)), -28)
            self.assertEqual(owner.difference([SQUARE], [OTHER], "positive", solver="rounds"),
                             owner.difference([SQUARE], [OTHER]))
            with self.assertRaisesRegex(polyover.BadInput, "unknown fill rule 'nope'"):
                owner.union([SQUARE], [OTHER], "nope")

    def test_union_all(self):
        for owner in (polyover, polyover.Scaled(2)):
            self.assertEqual(area(owner.union_all([[SQUARE], [OTHER[::-1]], [AWAY]])), 29)
            self.assertEqual(area(owner.union_all([[SQUARE, INNER], [INNER]], "evenodd")), 16)
            self.assertEqual(area(owner.union_all([[SQUARE, INNER]], "evenodd")), 15)
            self.assertEqual(owner.union_all([]), [])
            self.assertEqual(len(owner.union_all(iter([[SQUARE], [AWAY]]), minimum_area=2)), 1)
            with self.assertRaisesRegex(polyover.BadInput, "group 2: subject: contour 1, point 2: "):
                owner.union_all([[SQUARE], [[(0, 0), ("x", 0), (1, 1)]]])
        self.assertEqual(area(polyover.Scaled(1).union_all([AREA, {"type": "Feature", "geometry": AREA}, [AWAY]])), 5)
        self.assertEqual(area(polyover.Scaled(1).union_all(AREA)), 4)

    @unittest.skipIf(Polygon is None, "no python3 here has shapely (Debian's python3-shapely)")
    def test_as_shapely(self):
        scaled, one, two = polyover.Scaled.of_digits(6), Polygon(SQUARE), Point(3.5, 2.25).buffer(1.75)
        for name in RULES:
            found = shapely_shape(getattr(scaled, name)(one, two))
            self.assertLess(found.symmetric_difference(getattr(one, name)(two)).area, 1e-4)
        found = shapely_shape(scaled.union_all([one, two, Polygon(AWAY)]))
        self.assertLess(found.symmetric_difference(unary_union([one, two, Polygon(AWAY)])).area, 1e-4)


class Relations(unittest.TestCase):
    """Relations by name."""

    def test_by_hand(self):
        holding = {
            "other": (OTHER, {"intersects", "interiors_intersect"}),
            "inner": (INNER, {"intersects", "interiors_intersect", "covers"}),
            "beside": (BESIDE, {"intersects", "touches"}),
            "away": (AWAY, {"disjoint"}),
            "corner": ([(4, 4), (5, 4), (5, 5)], {"intersects", "touches", "point_intersects"}),
        }
        for owner in (polyover, polyover.Scaled(8)):
            for what, (other, names) in holding.items():
                self.assertEqual({name for name in RELATIONS if getattr(owner, name)([SQUARE], [other])}, names, what)
            self.assertTrue(owner.within([INNER], [SQUARE], "evenodd", solver="rounds"))

    @unittest.skipIf(Polygon is None, "no python3 here has shapely (Debian's python3-shapely)")
    def test_as_shapely(self):
        scaled = polyover.Scaled.of_digits(7)
        for other in map(Polygon, (OTHER, INNER, BESIDE, AWAY)):
            for name in ("intersects", "touches", "within", "disjoint", "covers"):
                self.assertEqual(getattr(scaled, name)(Polygon(SQUARE), other), getattr(Polygon(SQUARE), name)(other))


class Objects(unittest.TestCase):
    """What `Scaled` is by itself."""

    def test_repr(self):
        for scaled, told in (
            (polyover.Scaled.of_digits(7), "Scaled(10000000)"),
            (polyover.Scaled(0.5, (1, -2.5)), "Scaled(Fraction(1, 2), (1, Fraction(-5, 2)))"),
        ):
            self.assertEqual(repr(scaled), told)
            self.assertEqual(eval(told, {"Scaled": polyover.Scaled, "Fraction": Fraction}), scaled)

    def test_equal(self):
        one, other = polyover.Scaled(1000), polyover.Scaled.of_digits(3)
        self.assertEqual((one, hash(one)), (other, hash(other)))
        self.assertEqual(pickle.loads(pickle.dumps(one)), other)
        for different in (polyover.Scaled(100), polyover.Scaled(1000, (0, 1)), 1000, None):
            self.assertNotEqual(one, different)


class Faults(unittest.TestCase):
    """What faults say."""

    def test_a_geometry_without_a_scale(self):
        self.assertRaisesRegex(polyover.BadInput, "^subject: a geometry in the place of a list of contours: Scaled ",
                               polyover.overlay, AREA)
        self.assertRaisesRegex(polyover.BadInput, "^clip: a geometry in the place of a list of contours: Scaled takes",
                               polyover.overlay, [SQUARE], {"type": "Feature", "geometry": AREA})
        self.assertRaisesRegex(polyover.BadInput, "^lines: a geometry in the place of a list of lines: Scaled takes",
                               polyover.clip, [SQUARE], AREA)
        if Polygon is not None:
            self.assertRaisesRegex(polyover.BadInput, "^shape: a geometry .*: Scaled takes", polyover.tiles,
                                   wkt.loads("POLYGON ((0 0, 1 0, 1 1, 0 0))"), 1, 1)

    def test_contours_count_from_one(self):
        bow = [(0, 0), (4, 4), (4, 0), (0, 4)]
        for owner in (polyover, polyover.Scaled(1)):
            for shape, number in (([bow], 1), ([SQUARE, bow], 2)):
                with self.assertRaisesRegex(polyover.NotResolved, f"^contour {number} is not resolved") as found:
                    owner.locate(shape, [(1, 1)])
                self.assertEqual(found.exception.contour, number)


if __name__ == "__main__":
    unittest.main()
