"""Geometries that are taken without a reading of features: each answer, warning and fault is that of the reading."""

import random
import unittest
import warnings
from math import cos, pi, sin
from time import process_time
from unittest import mock

import polyover
from polyover import polygons

from .features import square
from .there import with_library

try:
    from shapely.geometry import GeometryCollection, LinearRing, MultiPolygon, Polygon, mapping
except ImportError:
    Polygon = None

try:
    from polyover import quick
except ImportError:
    quick = None

SCALED = polyover.Scaled.of_digits(7)
BOW = [(0, 0), (4, 4), (4, 0), (0, 4)]
OUTSIDE = [[(0, 0), (4, 0), (4, 4), (0, 4)], [(6, 1), (7, 1), (7, 2), (6, 2)]]
OVERLAPPING = [[(0, 0), (9, 0), (9, 9), (0, 9)], [(1, 1), (5, 1), (5, 5), (1, 5)], [(4, 4), (8, 4), (8, 8), (4, 8)]]


def star(x, y, spikes=4, far=1.0, near=0.4):
    """A ring of spikes round a point."""
    turns = [pi * at / spikes + 0.1 for at in range(2 * spikes)]
    return [(x + (far, near)[at % 2] * cos(turn), y + (far, near)[at % 2] * sin(turn)) for at, turn in enumerate(turns)]


def geometry(kind, coordinates):
    """A geometry of GeoJSON."""
    return {"type": kind, "coordinates": coordinates}


def told(call):
    """What a call answers or raises, and its warnings."""
    with warnings.catch_warnings(record=True) as found:
        warnings.simplefilter("always")
        try:
            answer = call()
        except polyover.PolyoverError as fault:
            answer = type(fault), str(fault)
    return answer, [str(each.message) for each in found if issubclass(each.category, polyover.PolyoverWarning)]


class Same(unittest.TestCase):
    """Beside a feature, which is read."""

    def same(self, one, other, fill="nonzero"):
        """That geometries give what features of them do; the answer."""
        for call in (
            lambda a, b: SCALED.overlay(a, b, "intersect", fill),
            lambda a, b: SCALED.overlay(a, b, "difference", fill, minimum_area=0.01),
            lambda a, b: SCALED.simplify(a, fill),
            lambda a, b: SCALED.edges(a, b, fill),
            lambda a, b: SCALED.slice(a, [[(0, 0.5), (9, 0.5)]], fill),
            lambda a, b: SCALED.relate(a, b, fill),
            lambda a, b: SCALED.locate(a, [(0.5, 0.5), (2, 2), (6.5, 1.5)]),
        ):
            features = [{"type": "Feature", "properties": None, "geometry": its if isinstance(its, dict) else
                         mapping(its)} for its in (one, other)]
            self.assertEqual(told(lambda: call(one, other)), told(lambda: call(*features)), (one, other))

    def test_of_geojson(self):
        ring = square(0, 0, 4, 4)
        thin = [[0, 0], [1e-9, 0], [0, 1e-9], [0, 0]]
        for kind, coordinates in (
            ("Polygon", [ring]),
            ("Polygon", [ring[::-1], square(1, 1, 2, 2)]),
            ("Polygon", [[*BOW, BOW[0]]]),
            ("Polygon", [ring[:-1]]),
            ("Polygon", [thin]),
            ("Polygon", [ring, thin]),
            ("Polygon", [ring, *([*its, its[0]] for its in OUTSIDE[1:])]),
            ("Polygon", [[*its, its[0]] for its in OVERLAPPING]),
            ("Polygon", []),
            ("MultiPolygon", []),
            ("MultiPolygon", [[ring], [square(2, 2, 6, 6)]]),
            ("MultiPolygon", [[ring], [square(2, 2, 6, 6), square(3, 3, 4, 4)]]),
            ("Polygon", [[[0, 0, 5], [4, 0, 5], [4, 4, 5], [0, 0, 5]]]),
            ("Polygon", [[[0, 0], [1e300, 0], [4, 4], [0, 0]]]),
            ("Polygon", [[[0, 0], [float("nan"), 0], [4, 4], [0, 0]]]),
            ("Polygon", [[[0, 0], [True, 0], [4, 4], [0, 0]]]),
            ("Polygon", [[[0, 0], [4, 4], [0, 0]]]),
            ("Polygon", 5),
            ("Polygone", [ring]),
        ):
            for fill in ("nonzero", "evenodd", "positive", "negative"):
                self.same(geometry(kind, coordinates), geometry("Polygon", [square(1, 1, 5, 3)]), fill)

    @unittest.skipIf(Polygon is None, "no python3 here has shapely (Debian's python3-shapely)")
    def test_of_shapely(self):
        chance = random.Random(2)
        rings = [star(chance.uniform(0, 3), chance.uniform(0, 3), chance.randint(3, 40), 3, 2) for _ in range(20)]
        made = [*(Polygon(ring) for ring in rings), *(Polygon(ring[::-1], [star(1.5, 1.5, 4, 0.2, 0.1)])
                                                      for ring in rings)]
        made += [Polygon(BOW), Polygon(OUTSIDE[0], OUTSIDE[1:]), Polygon(OVERLAPPING[0], OVERLAPPING[1:])]
        made += [Polygon(), MultiPolygon(), MultiPolygon(made[:3]), MultiPolygon(made[18:22])]
        made += [Polygon([(0, 0, 1), (3, 0, 1), (3, 3, 1)]), Polygon([(0, 0), (1e300, 0), (3, 3)])]
        made += [GeometryCollection(made[:2]), Polygon([(0, 0), (1e-9, 0), (0, 1e-9)])]
        for each in made:
            for fill in ("nonzero", "evenodd", "negative"):
                self.same(each, made[0], fill)
        with self.assertRaisesRegex(polyover.BadInput, "'LinearRing' in the place of Polygon or MultiPolygon"):
            SCALED.overlay(LinearRing(BOW))

    @unittest.skipIf(Polygon is None, "no python3 here has shapely (Debian's python3-shapely)")
    def test_by_hand(self):
        one, two = Polygon([(0, 0), (4, 0), (4, 4), (0, 4)]), Polygon([(2.5, 2), (6, 2), (6, 6), (2.5, 6)])
        self.assertEqual(SCALED.overlay(one, two, "intersect"), [[[(2.5, 4), (2.5, 2), (4, 2), (4, 4)]]])

    def test_rounding_of_columns(self):
        chance = random.Random(7)
        for scaled in (SCALED, polyover.Scaled(3, (0.1, 0)), polyover.Scaled(2.0**-9), polyover.Scaled(10**20)):
            for axis in scaled.axes:
                values = [chance.choice((chance.uniform(-180, 180), chance.randint(-99, 99) / 2, 1e12, 5e-324, -1e300))
                          for _ in range(40)]
                for column in (values, [each for each in values if abs(each) < 200]):
                    self.assertEqual(axis.column(column), list(map(axis.whole, column)))
            with self.assertRaises((ValueError, OverflowError)):
                scaled.axes[0].column([0.5, float("nan")])


@unittest.skipIf(Polygon is None, "no python3 here has shapely (Debian's python3-shapely)")
class Quick(unittest.TestCase):
    """What is not done."""

    def test_no_dictionary_of_geojson(self):
        one, two = Polygon(star(0, 0)), Polygon(star(0.31, 0.17))
        expected = SCALED.overlay(mapping(one), mapping(two), "intersect")
        fails = mock.PropertyMock(side_effect=AssertionError("a dictionary is made"))
        with mock.patch.object(Polygon, "__geo_interface__", fails), mock.patch.object(polygons, "Ring", None):
            self.assertEqual(SCALED.overlay(one, two, "intersect"), expected)
            self.assertEqual(SCALED.relate(one, two)["intersects"], True)

    @with_library
    def test_time_of_small_calls(self):
        one, two = Polygon(star(0, 0)), Polygon(star(0.31, 0.17))

        def least(call):
            """The least processor time of a hundred calls."""
            found = []
            for _ in range(10):
                start = process_time()
                for _ in range(100):
                    call()
                found.append(process_time() - start)
            return min(found)

        # (some 1.2 times; with the reading of features 10)
        times = least(lambda: SCALED.overlay(one, two, "intersect")) / least(lambda: one.intersection(two))
        self.assertLess(times, 3)


if __name__ == "__main__":
    unittest.main()
