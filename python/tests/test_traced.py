"""Edges with the steps on which they lie: answers by hand, what is refused, their memory, and many edges."""

import unittest
from array import array
from collections import Counter
from unittest import mock

import polyover
from polyover import library
from polyover.text import SOLVERS

from .rows import OTHER, SQUARE, UNSETTLED
from .there import ask_library_alone, asked_alone, older_library, with_library

LIMIT = 4611686018427387903


def subject(path, step, cut=False, is_reversed=False):
    """A step of the subject."""
    return "subject", path, step, cut, is_reversed


def clip(path, step, cut=False, is_reversed=False):
    """A step of the clip."""
    return "clip", path, step, cut, is_reversed


# the squares cross in (4, 2) and (2, 4)
CROSSING = [
    ((0, 0), (0, 4), 2, [subject(0, 3, False, True)]),
    ((0, 0), (4, 0), 1, [subject(0, 0)]),
    ((0, 4), (2, 4), 2, [subject(0, 2, True, True)]),
    ((2, 2), (2, 4), 11, [clip(0, 3, True, True)]),
    ((2, 2), (4, 2), 7, [clip(0, 0, True)]),
    ((2, 4), (2, 6), 8, [clip(0, 3, True, True)]),
    ((2, 4), (4, 4), 14, [subject(0, 2, True, True)]),
    ((2, 6), (6, 6), 8, [clip(0, 2, False, True)]),
    ((4, 0), (4, 2), 1, [subject(0, 1, True)]),
    ((4, 2), (4, 4), 13, [subject(0, 1, True)]),
    ((4, 2), (6, 2), 4, [clip(0, 0, True)]),
    ((6, 2), (6, 6), 4, [clip(0, 1)]),
]


def in_order(edges):
    """The edges with the sources of each in order, since this is left open."""
    return [(a, b, fill, sorted(sources)) for a, b, fill, sources in edges]


@with_library
class Answers(unittest.TestCase):
    """What is traced."""

    def setUp(self):
        ask_library_alone(self)

    def test_squares(self):
        for solver in SOLVERS:
            self.assertEqual(polyover.trace([SQUARE], [OTHER], solver=solver), CROSSING)
            both = [CROSSING[at] for at in (3, 4, 6, 9)]
            self.assertEqual(polyover.trace([SQUARE], [OTHER], "intersect", solver=solver), both)
        found = polyover.trace([SQUARE])[0]
        self.assertIsInstance(found, polyover.TracedEdge)
        self.assertIsInstance(found.sources[0], polyover.Source)
        self.assertTrue(found.sources[0].reversed)

    def test_as_edges(self):
        shape = [SQUARE, OTHER, [(1, 3), (5, 0), (7, 5)]]
        found = polyover.trace(shape, [OTHER], fill="evenodd")
        self.assertEqual([edge[:3] for edge in found], polyover.edges(shape, [OTHER], "evenodd"))

    def test_open_paths(self):
        roads = [[(0, 0), (4, 0), (4, 4)], [(6, 0), (2, 0)], [(7, 7)], []]
        wanted = [
            ((0, 0), (2, 0), [subject(0, 0, True)]),
            ((2, 0), (4, 0), [subject(0, 0, True), subject(1, 0, True, True)]),
            ((4, 0), (4, 4), [subject(0, 1)]),
            ((4, 0), (6, 0), [subject(1, 0, True, True)]),
        ]
        # (the two that lie on one another, there and back, leave no count and go)
        found = in_order(polyover.trace(roads, closed=False))
        self.assertEqual([(a, b, sources) for a, b, _, sources in found], [wanted[0], *wanted[2:]])
        found = in_order(polyover.trace(roads[:1], roads[1:], closed=False))
        beside = [subject(0, 0, True), clip(0, 0, True, True)]
        self.assertEqual(found[1], ((2, 0), (4, 0), 5, sorted(beside)))
        self.assertEqual(len(found), 4)

    def test_arrays(self):
        given = polyover.FlatShapes.of([[SQUARE]]).contours
        self.assertEqual(polyover.trace(given, [OTHER]), CROSSING)
        rows = memoryview(array("q", [number for point in OTHER for number in point])).cast("B").cast("q", (4, 2))
        self.assertEqual(polyover.trace([SQUARE], [rows]), CROSSING)

    def test_at_a_scale(self):
        halves = [[(x / 2, y / 2) for x, y in contour] for contour in (SQUARE, OTHER)]
        scaled = polyover.Scaled(2)
        wanted = [((a[0] / 2, a[1] / 2), (b[0] / 2, b[1] / 2), *others) for a, b, *others in CROSSING]
        self.assertEqual(scaled.trace(halves[:1], halves[1:]), wanted)
        self.assertEqual(scaled.trace(halves[:1], rule="subject")[0].sources, [subject(0, 3, False, True)])
        self.assertEqual(len(scaled.trace([[(0, 0), (1, 1)]], closed=False)), 1)
        shape = {"type": "Polygon", "coordinates": halves[:1]}
        with self.assertRaisesRegex(polyover.BadInput, "^clip: a geometry in the place of a list of contours: a trace"):
            scaled.trace(halves, shape)

    def test_nothing(self):
        for paths in ([], [[]], [[(1, 1)]], [[(1, 1), (1, 1)]], [[(1, 1), (2, 2)]]):
            self.assertEqual(polyover.trace(paths), [])
            self.assertEqual(polyover.trace(paths[:1] * 2, rule="xor"), [])

    def test_ends_of_the_range(self):
        diagonal, other = [(-LIMIT, -LIMIT), (LIMIT, LIMIT)], [(-LIMIT, LIMIT), (LIMIT, -LIMIT)]
        found = polyover.trace([diagonal], [other], closed=False)
        self.assertEqual([edge.b for edge in found[:2]], [(0, 0), (0, 0)])
        self.assertEqual([edge.sources for edge in found[1:3]], [[clip(0, 0, True)]] * 2)


class Refused(unittest.TestCase):
    """What cannot be asked."""

    @with_library
    def test_arguments(self):
        ask_library_alone(self)
        with self.assertRaisesRegex(polyover.BadInput, "clip: contour 1, point 2: 0.5 is no whole number"):
            polyover.trace([SQUARE], [[(0, 0), (0.5, 0), (1, 1)]])
        with self.assertRaisesRegex(polyover.BadInput, f"subject: contour 1, point 1: {LIMIT + 1} is out of range"):
            polyover.trace([[(LIMIT + 1, 0), (1, 0), (1, 1)]])
        with self.assertRaisesRegex(polyover.BadInput, "unknown rule 'all'"):
            polyover.trace([SQUARE], rule="all")
        with self.assertRaisesRegex(polyover.BadInput, "unknown fill rule 'odd'"):
            polyover.trace([SQUARE], fill="odd")
        with self.assertRaisesRegex(polyover.BadInput, "unknown solver 'exact'"):
            polyover.trace([SQUARE], solver="exact")
        with self.assertRaisesRegex(polyover.NotSettled, "64 rounds"):
            polyover.trace(UNSETTLED, solver="rounds")

    def test_the_program_alone(self):
        asked_alone(self, POLYOVER_PROGRAM="/nowhere/polyover")
        with self.assertRaisesRegex(polyover.LibraryMissing, "no library that traces edges"):
            polyover.trace([SQUARE])

    @with_library
    def test_an_older_library(self):
        ask_library_alone(self)
        with older_library("polyover_trace"):
            with self.assertRaisesRegex(polyover.LibraryMissing, "no library that traces edges"):
                polyover.trace([SQUARE])


@with_library
class Memory(unittest.TestCase):
    """Memory is given back once, whether edges are there or not."""

    def test_freed(self):
        ask_library_alone(self)
        freed, functions = [], library.library().functions
        free = functions.polyover_traced_free
        with mock.patch.object(functions, "polyover_traced_free", lambda it: freed.append(free(it))):
            polyover.trace([SQUARE])
            self.assertEqual(len(freed), 1)
            with self.assertRaises(polyover.NotSettled):
                polyover.trace(UNSETTLED, solver="rounds")
        self.assertEqual(len(freed), 2)


@with_library
class Large(unittest.TestCase):
    """5,000 rectangles across one."""

    def test_rectangles(self):
        ask_library_alone(self)
        count = 5000

        def rectangle(left, low, right, high):
            return [(left, low), (right, low), (right, high), (left, high)]

        uprights = [rectangle(4 * at + 1, 0, 4 * at + 3, 3) for at in range(count)]
        found = polyover.trace([rectangle(0, 1, 4 * count, 2)], uprights)
        self.assertEqual(len(found), 12 * count + 4)
        times = Counter(source for edge in found for source in edge.sources)
        # (of the long one the level sides are cut, of the others the upright ones; the upper and the left run back)
        for step in range(4):
            pieces = 1 if step % 2 else 2 * count + 1
            self.assertEqual(times.pop(subject(0, step, pieces > 1, step >= 2)), pieces)
        for at in range(count):
            for step in range(4):
                pieces = 3 if step % 2 else 1
                self.assertEqual(times.pop(clip(at, step, pieces > 1, step >= 2)), pieces)
        self.assertEqual(times, {})


if __name__ == "__main__":
    unittest.main()
