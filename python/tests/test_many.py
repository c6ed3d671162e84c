"""Layers that are read many features at a time: as they are one by one."""

import random
import unittest
from itertools import chain

import polyover
from polyover import many, turning
from polyover.columns import whole_columns
from polyover.contour import directed_rings
from polyover.parts import LINES, POINTS, POLYGONS
from polyover.reader import Reader
from polyover.scaled import Scaled
from polyover.told import Told

from .features import feature

try:
    import numpy
except ImportError:
    numpy = None

with_numpy = unittest.skipIf(numpy is None, "no python3 here has NumPy (Debian's python3-numpy)")
TURN = 2**32
PLAIN = [
    feature("Point", [1.5, 2]),
    feature("LineString", [[0, 1], [2.5, 3]]),
    feature("LineString", [[0, 1], [0, 1]], name="a"),
    feature("Polygon", [[[0, 0], [4, 0], [0, 4], [0, 0]], [[1, 1], [2, 1], [1, 2], [1, 1]]], name="b"),
    feature("Polygon", [[[0, 0], [4, 0], [0, 4]]]),
    {"id": 7, "type": "Feature", "geometry": {"coordinates": [[[0, 0], [1, 0], [1, 1]]], "type": "Polygon"}},
]
OTHER = [
    feature("Point", [1.5, 2, 3]),
    feature("MultiPoint", [[1, 2], [3, 4]]),
    feature("LineString", [[0, 1, 7], [2.5, 3]]),
    feature("MultiLineString", [[[0, 1], [2.5, 3]]]),
    feature("Polygon", []),
    feature("Polygon", [[[0, 0], [4, 0], [0, 4], [0, 0, 1]]]),
    feature("MultiPolygon", [[[[0, 0], [4, 0], [0, 4]]]]),
    {"type": "Feature", "properties": {"a": 1}, "geometry": None},
    {"type": "LineString", "coordinates": [[0, 1], [2, 3]]},
]
BAD = [
    feature("Point", [1]),
    feature("LineString", [[0, 1]]),
    feature("LineString", [[0, 1], [2, float("nan")]]),
    feature("LineString", [[0, 1], [2, True]]),
    feature("LineString", [[0, 1], "ab"]),
    feature("Polygon", [[[0, 0], [1, 1], [0, 0]]]),
    feature("Polygon", [[[0, 0], [1, 1], [0, 1]], []]),
    feature("Polygon", [[[0, 0], [1, float("inf")], [0, 1]]]),
    feature("Polygon", [7]),
    {"type": "Feature", "properties": 7, "geometry": {"type": "Polygon", "coordinates": [[[0, 0], [1, 0], [1, 1]]]}},
    7,
]


def read(reading, kinds, things):
    """What is read of things, and what is said of them, or the fault."""
    told = Told("a")
    reader = Reader(kinds, False, told)
    try:
        found = list(reading(reader, [(0, thing) for thing in things]))
    except polyover.BadInput as fault:
        return str(fault)
    parts = [[(part.place, part.paths, part.count, part.size) for part in each.parts] for each in found]
    return [(each.place, each.members, each.is_null) for each in found], parts, told.lines()


class Features(unittest.TestCase):
    """Features are those that the reader has one by one, with its faults."""

    def check(self, things):
        """That things are read as one by one."""
        for kinds in (POINTS, LINES, POLYGONS):
            self.assertEqual(read(many.features, kinds, things), read(Reader.features, kinds, things))

    def test_each_alone(self):
        self.check([])
        for each in [*PLAIN, *OTHER, *BAD]:
            self.check([each])

    def test_among_others(self):
        chance = random.Random(5)
        for size in (3, 30, many.AT_ONCE + 5, 2 * many.AT_ONCE):
            for _ in range(20):
                things = [chance.choice(chance.choice((PLAIN, PLAIN, OTHER))) for _ in range(size)]
                self.check(things)
                self.check([each for each in things if each.get("type") == "Feature"])
                things[chance.randrange(size)] = chance.choice(BAD)
                self.check(things)

    def test_given_things_stay(self):
        text = repr(PLAIN)
        read(many.features, POLYGONS, PLAIN)
        self.assertEqual(repr(PLAIN), text)


@with_numpy
class Directions(unittest.TestCase):
    """Rings run in their directions, as one by one."""

    def check(self, polygons):
        """That polygons by whole points are directed as one by one."""
        rows = [list(chain.from_iterable(ring)) for rings in polygons for ring in rings]
        sizes = list(map(len, polygons))
        whole = numpy.array(list(chain.from_iterable(rows)), numpy.int64)
        flat, is_kept = turning.directed_all(whole, [len(row) // 2 for row in rows], sizes)
        found = iter([list(chain.from_iterable(path)) for path in flat])
        told = [[next(found) for _ in range(size)] if kept else [] for kept, size in zip(is_kept, sizes)]
        each = iter(rows)
        self.assertEqual(told, [directed_rings([list(next(each)) for _ in range(size)]) for size in sizes])
        self.assertIsNone(next(found, None))

    def test_by_hand(self):
        square, turned = [(0, 0), (4, 0), (4, 4), (0, 4)], [(1, 1), (1, 2), (2, 2)]
        twice, flat = [(0, 0), (4, 0), (4, 4), (0, 0), (-3, 1), (-1, -9)], [(0, 0), (1, 1), (2, 2)]
        self.check([[square], [turned], [square, turned], [square[::-1], turned[::-1]]])
        self.check([[twice], [flat], [square, flat], [square, turned]])
        self.check([[twice]])

    def test_of_any_size(self):
        chance = random.Random(8)
        for far in (2, 20, 2**31, TURN, 2**39):
            for _ in range(60):
                self.check([
                    [[(chance.randint(-far, far), chance.randint(-far, far)) for _ in range(chance.randint(3, 9))]
                     for _ in range(chance.randint(1, 3))]
                    for _ in range(chance.randint(1, 8))
                ])

    def test_areas_beyond_64_bits(self):
        far = 2**39
        # (twice the area is 8 far^2, which is 0 by 64 bits)
        square = [(-far, -far), (far, -far), (far, far), (-far, far)]
        self.check([[square], [square[::-1]]])

    def test_large_ones_are_not_taken(self):
        whole = numpy.array([0, 0, 2**41, 0, 0, 1], numpy.int64)
        self.assertIsNone(turning.directed_all(whole, [3], [1]))


@with_numpy
class Columns(unittest.TestCase):
    """Whole coordinates of many points are those of each."""

    def test_numbers(self):
        chance, scaled = random.Random(9), Scaled.of_digits(7)
        given = [chance.choice((chance.uniform(-180, 180), chance.randint(-90, 90))) for _ in range(500)]
        self.assertEqual(whole_columns(scaled.axes, given).tolist(), [scaled.axes[0].whole(each) for each in given])
        # (near a half, large, none, not one axis, few)
        for each in (0.00000005, 1e9, float("nan"), 10**400):
            self.assertIsNone(whole_columns(scaled.axes, [*given, each, 0]))
        self.assertIsNone(whole_columns(Scaled.of_digits(7, (1, 2)).axes, given))
        self.assertIsNone(whole_columns(scaled.axes, given[:10]))


if __name__ == "__main__":
    unittest.main()
