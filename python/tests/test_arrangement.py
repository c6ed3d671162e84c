"""Arrangements: answers by hand and beside the calls, what is refused, their memory, and several threads at once."""

import random
import unittest
from concurrent.futures import ThreadPoolExecutor
from threading import Barrier
from unittest import mock

import polyover
from polyover import library
from polyover.text import FILLS, RULES, SOLVERS

from .rows import FRAME, HALL, NESTED, OTHER, SQUARE, UNSETTLED
from .there import ask_library_alone, asked_alone, older_library, with_library

LIMIT = 4611686018427387903


def random_contours(chance, count, span):
    """Some triangles with corners from -span to span."""
    return [[(chance.randint(-span, span), chance.randint(-span, span)) for _ in range(3)] for _ in range(count)]


@with_library
class Answers(unittest.TestCase):
    """What an arrangement answers."""

    def setUp(self):
        ask_library_alone(self)

    def test_by_hand(self):
        for solver in SOLVERS:
            both = polyover.Arrangement([SQUARE], [OTHER], solver=solver)
            self.assertEqual(both.overlay("intersect"), [[[(2, 4), (2, 2), (4, 2), (4, 4)]]])
            self.assertEqual(both.overlay("subject"), [[SQUARE[-1:] + SQUARE[:-1]]])
            self.assertEqual(both.overlay("difference", clockwise=True), polyover.difference([SQUARE], [OTHER],
                             clockwise=True))
            # (two sides of each square cross the other square)
            self.assertEqual(len(both.edges()), 12)

    def test_as_the_calls(self):
        chance = random.Random(82)
        for span in (9, 2**31, LIMIT):
            for fill in FILLS:
                one, other = random_contours(chance, 5, span), random_contours(chance, 4, span)
                both = polyover.Arrangement(one, other, fill)
                for rule in RULES:
                    for how in ({}, {"ogc": False, "keep": True}, {"clockwise": True, "minimum_area": span}):
                        self.assertEqual(both.overlay(rule, **how), polyover.overlay(one, other, rule, fill, **how))
                        self.assertEqual(
                            both.hierarchy(rule, **how), polyover.hierarchy(one, other, rule, fill, **how)
                        )
                self.assertEqual(both.edges(), polyover.edges(one, other, fill))

    def test_arrays(self):
        found = polyover.Arrangement(HALL).overlay("subject", arrays=True)
        self.assertIsInstance(found, polyover.FlatShapes)
        self.assertEqual(list(found), polyover.overlay(HALL, rule="subject"))
        given = polyover.FlatShapes.of([HALL]).contours
        self.assertEqual(polyover.Arrangement(given, given).overlay(), polyover.overlay(HALL, HALL))

    def test_nothing(self):
        for shape in ([], [[]], [[(1, 1), (2, 2)]]):
            none = polyover.Arrangement(shape)
            self.assertEqual((none.overlay(), none.hierarchy(), none.edges()), ([], ([], []), []))

    def test_links(self):
        shapes, links = polyover.Arrangement(NESTED, fill="evenodd").hierarchy()
        self.assertEqual((len(shapes), links), (2, [(0, 1, 1)]))


@with_library
class AtScale(unittest.TestCase):
    """Arrangements of floats, by hand."""

    def setUp(self):
        ask_library_alone(self)

    def test_two_squares(self):
        one, other = [(0.5, 0), (2.5, 0), (2.5, 2), (0.5, 2)], [(1.5, 1), (3.5, 1), (3.5, 3), (1.5, 3)]
        common = [[[(1.5, 2), (1.5, 1), (2.5, 1), (2.5, 2)]]]
        with polyover.Scaled(2, (0.5, 0)).arrangement([one], {"type": "Polygon", "coordinates": [other]}) as both:
            self.assertEqual(both.overlay("intersect"), common)
            self.assertEqual(both.overlay("intersect", minimum_area=1), common)
            self.assertEqual(both.overlay("intersect", minimum_area=1.25), [])
            self.assertEqual(list(both.overlay("intersect", arrays=True)), common)
            self.assertEqual(both.hierarchy("intersect"), (common, []))
            edges = both.edges()
            self.assertEqual((len(edges), edges[0]), (12, ((0.5, 0), (0.5, 2), 2)))
            with self.assertRaisesRegex(polyover.BadInput, "the minimum area -1 is not from 0"):
                both.overlay(minimum_area=-1)

    def test_polygons_that_overlap(self):
        # (one rectangle, and two edges in it, which have both sides filled)
        wide = [[[[x, 0], [x + 2, 0], [x + 2, 1], [x, 1], [x, 0]]] for x in (0, 1)]
        both = polyover.Scaled(1).arrangement({"type": "MultiPolygon", "coordinates": wide})
        self.assertEqual(both.overlay("subject"), [[[(0, 1), (0, 0), (3, 0), (3, 1)]]])
        edges = both.edges()
        self.assertEqual([edge for edge in edges if edge[2] == 3], [((1, 0), (1, 1), 3), ((2, 0), (2, 1), 3)])
        self.assertEqual(len(edges), 10)

    def test_refused(self):
        with self.assertRaisesRegex(polyover.BadInput, "clip: contour 1, point 2: .* is no point of two finite"):
            polyover.Scaled(1).arrangement([SQUARE], [[(0, 0), (float("nan"), 1), (1, 1)]])
        with self.assertRaisesRegex(polyover.BadInput, "unknown solver 'exact'"):
            polyover.Scaled(1).arrangement([SQUARE], solver="exact")


class Refused(unittest.TestCase):
    """What cannot be asked."""

    @with_library
    def test_contours(self):
        ask_library_alone(self)
        with self.assertRaisesRegex(polyover.BadInput, "clip: contour 1, point 2: 0.5 is no whole number"):
            polyover.Arrangement([SQUARE], [[(0, 0), (0.5, 0), (1, 1)]])
        with self.assertRaisesRegex(polyover.BadInput, f"subject: contour 1, point 1: {LIMIT + 1} is out of range"):
            polyover.Arrangement([[(LIMIT + 1, 0), (1, 0), (1, 1)]])
        with self.assertRaisesRegex(polyover.BadInput, "unknown fill rule 'odd'"):
            polyover.Arrangement([SQUARE], [], "odd")
        with self.assertRaisesRegex(polyover.BadInput, "unknown solver 'exact'"):
            polyover.Arrangement([SQUARE], solver="exact")
        with self.assertRaisesRegex(polyover.NotSettled, "64 rounds"):
            polyover.Arrangement(UNSETTLED, solver="rounds")

    @with_library
    def test_questions(self):
        ask_library_alone(self)
        both = polyover.Arrangement([SQUARE], [OTHER])
        for call in (both.overlay, both.hierarchy):
            with self.assertRaisesRegex(polyover.BadInput, "unknown rule 'both'"):
                call("both")
            with self.assertRaisesRegex(polyover.BadInput, "the minimum area -1 is not from 0"):
                call(minimum_area=-1)
        self.assertEqual(len(both.overlay()), 1)

    def test_the_program_alone(self):
        asked_alone(self, POLYOVER_PROGRAM="/nowhere/polyover")
        with self.assertRaisesRegex(polyover.LibraryMissing, "no library that has arrangements"):
            polyover.Arrangement([SQUARE])

    @with_library
    def test_an_older_library(self):
        ask_library_alone(self)
        with older_library("polyover_arrange"):
            with self.assertRaisesRegex(polyover.LibraryMissing, "no library that has arrangements"):
                polyover.Arrangement([SQUARE])


@with_library
class Memory(unittest.TestCase):
    """Memory is given back once, whichever way an arrangement goes."""

    def setUp(self):
        ask_library_alone(self)
        self.freed = []
        functions = library.library().functions
        free = functions.polyover_graph_free
        patch = mock.patch.object(functions, "polyover_graph_free", lambda it: self.freed.append(free(it)))
        patch.start()
        self.addCleanup(patch.stop)

    def test_closed(self):
        both = polyover.Arrangement(FRAME)
        both.close()
        self.assertEqual(len(self.freed), 1)
        both.close()
        for asked in (both.overlay, both.hierarchy, both.edges):
            with self.assertRaisesRegex(polyover.BadInput, "the arrangement was closed"):
                asked()
        del both
        self.assertEqual(len(self.freed), 1)

    def test_with_and_forgotten(self):
        with polyover.Arrangement(FRAME) as both:
            self.assertEqual(len(both.overlay()), 1)
            self.assertEqual(self.freed, [])
        self.assertEqual(len(self.freed), 1)
        del both
        several = [polyover.Arrangement(HALL) for _ in range(9)]
        several.clear()
        self.assertEqual(len(self.freed), 10)

    def test_nothing_is_taken_where_it_is_refused(self):
        with self.assertRaises(polyover.NotSettled):
            polyover.Arrangement(UNSETTLED, solver="rounds")
        self.assertEqual(self.freed, [])

    def test_threads(self):
        chance = random.Random(83)
        one, other = random_contours(chance, 60, 1000), random_contours(chance, 60, 1000)
        both, start = polyover.Arrangement(one, other), Barrier(len(RULES))
        expected = {rule: polyover.overlay(one, other, rule) for rule in RULES}

        def asked(rule):
            start.wait()
            return [both.overlay(rule) for _ in range(9)]

        with ThreadPoolExecutor(len(RULES)) as threads:
            for rule, found in zip(RULES, threads.map(asked, RULES)):
                self.assertEqual(found, [expected[rule]] * 9)


@with_library
class Large(unittest.TestCase):
    """80,000 edges."""

    def test_squares(self):
        ask_library_alone(self)
        # (of side 2, apart by 2, and the same moved by 1: each pair makes a union of 8 corners, and has 1 in common)
        def squares(by):
            return [
                [(x + by, y + by), (x + 2 + by, y + by), (x + 2 + by, y + 2 + by), (x + by, y + 2 + by)]
                for x in range(0, 400, 4)
                for y in range(0, 400, 4)
            ]

        both = polyover.Arrangement(squares(0), squares(1))
        union, common = both.overlay("union"), both.overlay("intersect")
        self.assertEqual((len(union), len(common)), (10000, 10000))
        self.assertEqual({len(contour) for shape in union for contour in shape}, {8})
        self.assertEqual({len(contour) for shape in common for contour in shape}, {4})
        self.assertEqual(len(both.edges()), 120000)


if __name__ == "__main__":
    unittest.main()
