"""Exact relations of the library for C beside their definition in fractions.

`POLYOVER_MADE` says how many pairs of shapes are made, 300 if it is not set.
"""

import os
import random
import unittest
from array import array
from collections import Counter
from ctypes import POINTER, byref, c_uint32
from itertools import accumulate, chain

from polyover import library, statuses, structs

from .exactly import FILLED, relations, turn, windings_beside
from .there import with_library

COUNT = int(os.environ.get("POLYOVER_MADE", "300"))
NAMES = ("intersects", "interiors_intersect", "touches", "point_intersects", "within", "disjoint", "covers")
# the end of the name of a call, the kind of its coordinates, and their limit
WIDTHS = (("", "q", 2**62 - 1), ("_32", "i", 2**30 - 1))
# no coordinate of a made shape is larger
LARGEST = 28


def ends_through(chance, size):
    """Points in turn: a whole one, and one at which an edge ends that leads from it through one point for all."""
    parts = chance.choice((2, 3, 5, 7))
    through = [chance.randint(0, size * parts) for _ in range(2)]
    while True:
        point = tuple(chance.randint(0, size) for _ in range(2))
        yield point
        yield tuple(p + q - parts * p for p, q in zip(point, through))


def made_place(chance):
    """A call that gives points: in a square, along a line, out of a few, or at ends of edges through one point."""
    size, kind = chance.choice((2, 3, 4, 6, 9)), chance.randrange(4)
    few = [(chance.randint(0, size), chance.randint(0, size)) for _ in range(5)]
    ends = ends_through(chance, min(size, 4))

    def place():
        if kind == 0:
            return chance.randint(0, size), chance.randint(0, size)
        if kind == 1:
            along = chance.randint(0, 2 * size)
            return along, along * size // 9 + chance.randint(-1, 1)
        return chance.choice(few) if kind == 2 else next(ends)

    return place


def made_contour(chance, place):
    """A few points; now and then a spike leads to another and back."""
    points = [place() for _ in range(chance.randint(3, 6))]
    if chance.random() < 0.2:
        at = chance.randrange(len(points))
        points[at:at + 1] = [points[at], place(), points[at]]
    return points


def made_shapes(chance):
    """A subject and a clip, which may cross themselves, overlap and share corners, edges and contours."""
    place = made_place(chance)
    both = [[made_contour(chance, place) for _ in range(chance.randint(1, 2))] for _ in range(2)]
    if chance.random() < 0.15:
        both[1].append(chance.choice(both[0])[::chance.choice((1, -1))])
    chance.shuffle(both)
    return both


def made_move(chance, limit):
    """A call that moves contours, as far as the limit lets, by a shift and a linear map that keeps their direction."""
    most = limit // (4 * LARGEST)
    while True:
        a, b, c, d = (chance.randint(-most, most) for _ in range(4))
        if a * d > b * c:
            break
    x, y = (chance.randint(-limit // 2, limit // 2) for _ in range(2))
    return lambda contours: [[(a * p + b * q + x, c * p + d * q + y) for p, q in each] for each in contours]


def answered(width, fill, subject, clip):
    """The relations that the library tells at a width: all at once, and each alone."""
    ending, kind, _ = width
    functions, told, one = library.library().functions, c_uint32(), c_uint32()
    call, call_of_one = (getattr(functions, f"polyover_relate_{name}{ending}") for name in ("exact", "one_exact"))
    given = [
        structs.Contours(array(kind, chain(*chain(*contours))), array(structs.SIZES, accumulate(map(len, contours))))
        for contours in (subject, clip)
    ]
    call.argtypes = (c_uint32, POINTER(structs.Contours), POINTER(structs.Contours), POINTER(c_uint32))
    call_of_one.argtypes = (c_uint32, *call.argtypes)
    statuses.check(call(list(FILLED).index(fill), *given, byref(told)))
    each = {}
    for at, name in enumerate(NAMES):
        statuses.check(call_of_one(1 << at, list(FILLED).index(fill), *given, byref(one)))
        each[name] = one.value == 1
    return {name: bool(told.value >> at & 1) for at, name in enumerate(NAMES)}, each


class Definition(unittest.TestCase):
    """The definition, by hand."""

    def assert_told(self, subject, clip, fill, *holding):
        """Stops unless these relations hold of two contours, and no others."""
        told = relations(windings_beside([subject], [clip]), fill)
        self.assertEqual([name for name in NAMES if told[name]], list(holding))

    def test_turns(self):
        self.assertGreater(turn((0, 0), (1, 0), (1, 1)), 0)

    def test_meeting_in_a_third(self):
        # the lines y = 2x, y = 5x - 1, y = 1 - x and y = 2 - 4x cross in (1/3, 2/3)
        bow, other = [(0, 0), (1, 2), (1, 4), (0, -1)], [(0, 1), (1, 0), (1, -2), (0, 2)]
        for fill in FILLED:
            self.assert_told(bow, other, fill, "intersects", "touches", "point_intersects")

    def test_slivers(self):
        # they have the border from (0, 0) to (5, 2), above (3, 1) and below (2, 1)
        below, above, around = [(0, 0), (3, 1), (5, 2)], [(0, 0), (5, 2), (2, 1)], [(0, 0), (5, 0), (5, 2)]
        self.assert_told(below, above, "positive", "intersects", "touches")
        self.assert_told(below, around, "evenodd", "intersects", "interiors_intersect", "within")
        self.assert_told(around, below, "nonzero", "intersects", "interiors_intersect", "covers")
        self.assert_told(below, around, "negative", "disjoint")


@with_library
class Library(unittest.TestCase):
    """The library beside the definition."""

    def test_made_shapes(self):
        chance, seen = random.Random(12), Counter()
        for _ in range(COUNT):
            subject, clip = made_shapes(chance)
            pieces = windings_beside(subject, clip)
            for fill in FILLED:
                expected = relations(pieces, fill)
                seen.update(expected.items())
                for width in WIDTHS:
                    move = made_move(chance, width[2])
                    given = (subject, clip), (move(subject), move(clip))
                    for both in given:
                        self.assertEqual(answered(width, fill, *both), (expected, expected), (width, fill, both))
        self.assertGreater(min(seen[name, holds] for name in NAMES for holds in (False, True)), COUNT // 50)


if __name__ == "__main__":
    unittest.main()
