"""Slices in either direction, and without small contours: answers by hand, and what is refused."""

import unittest

import polyover
from polyover.text import SOLVERS

from .there import ask_library_alone, ask_program_alone, with_library, with_program

# (a square of 400, a line across it, which leaves two halves of 200, and a closed line round 100 of it)
SQUARE = [(-10, -10), (10, -10), (10, 10), (-10, 10)]
ACROSS = [(-20, 0), (20, 0)]
ROUND = [(-5, -5), (-5, 5), (5, 5), (5, -5), (-5, -5)]
LOWER = [(10, -10), (10, 0), (-10, 0), (-10, -10)]
UPPER = [(10, 0), (10, 10), (-10, 10), (-10, 0)]


@with_library
class Answers(unittest.TestCase):
    """What slices are answered."""

    def setUp(self):
        ask_library_alone(self)

    def test_directions(self):
        for solver in SOLVERS:
            found = polyover.slice([SQUARE], [ACROSS], clockwise=True, solver=solver)
            self.assertEqual(found, [[LOWER[::-1]], [UPPER[::-1]]])
            self.assertEqual(polyover.slice([SQUARE], [ACROSS], solver=solver), [[LOWER], [UPPER]])

    def test_minimum_areas(self):
        self.assertEqual(polyover.slice([SQUARE], [ACROSS], minimum_area=200), [[LOWER], [UPPER]])
        self.assertEqual(polyover.slice([SQUARE], [ACROSS], minimum_area=201), [])
        ring, inner = polyover.slice([SQUARE], [ROUND], minimum_area=100)
        self.assertEqual((len(ring), len(inner)), (2, 1))
        self.assertEqual(polyover.slice([SQUARE], [ROUND], minimum_area=101), [ring[:1]])
        self.assertEqual(polyover.slice([SQUARE], [ROUND], minimum_area=2**100), [])

    def test_arrays(self):
        found = polyover.slice([SQUARE], [ACROSS], clockwise=True, arrays=True)
        self.assertIsInstance(found, polyover.FlatShapes)
        self.assertEqual(list(found), [[LOWER[::-1]], [UPPER[::-1]]])

    def test_refused(self):
        for area in (-1, 2**127, 1.5, "1"):
            with self.assertRaisesRegex(polyover.BadInput, "minimum area"):
                polyover.slice([SQUARE], [ACROSS], minimum_area=area)


@with_program
class Program(unittest.TestCase):
    """The program has no such options."""

    def test_missing(self):
        ask_program_alone(self)
        for how in ({"clockwise": True}, {"minimum_area": 1}):
            with self.assertRaisesRegex(polyover.LibraryMissing, "direction and a minimum area"):
                polyover.slice([SQUARE], [ACROSS], **how)
