"""Wrong arguments, each a fault of its own."""

import os
import unittest
from unittest import mock

import polyover

from .rows import SQUARE, UNSETTLED

LIMIT = 4611686018427387903


class Wrong(unittest.TestCase):
    """What can't be asked."""

    def test_unknown_words(self):
        with self.assertRaisesRegex(polyover.BadInput, "unknown rule 'joined'"):
            polyover.overlay([SQUARE], [], "joined")
        with self.assertRaisesRegex(polyover.BadInput, "unknown fill rule 'odd'"):
            polyover.overlay([SQUARE], fill="odd")

    def test_unknown_solvers(self):
        of_two = ("overlay", "hierarchy", "edges", "clip", "slice")
        asked = {**dict.fromkeys(of_two, ([SQUARE], [SQUARE])), "simplify": ([SQUARE],), "tiles": ([SQUARE], 1, 1)}
        for name, given in asked.items():
            for owner in (polyover, polyover.Scaled(1)):
                for solver in ("snap", "Rounds", None, 0):
                    with self.assertRaisesRegex(ValueError, f"unknown solver {solver!r}: one of snapped, rounds"):
                        getattr(owner, name)(*given, solver=solver)
        for call in (polyover.relate, polyover.within, polyover.Scaled(1).relate, polyover.Scaled(1).touches):
            for solver in ("snap", "Rounds", 0):
                with self.assertRaisesRegex(ValueError, f"unknown solver {solver!r}: one of exact, snapped, rounds"):
                    call([SQUARE], [SQUARE], solver=solver)

    def test_coordinates(self):
        with self.assertRaisesRegex(polyover.BadInput, "no whole number"):
            polyover.overlay([[(0.5, 0), (1, 0), (1, 1)]])
        with self.assertRaisesRegex(polyover.BadInput, "out of range"):
            polyover.overlay([[(LIMIT + 1, 0), (1, 0), (1, 1)]])
        self.assertEqual(len(polyover.overlay([[(LIMIT, -LIMIT), (-LIMIT, LIMIT), (-LIMIT, -LIMIT)]])), 1)

    def test_points(self):
        for contour in ([(0,)], [(0, 0, 0)], [3]):
            with self.assertRaises((TypeError, ValueError)):
                polyover.overlay([contour])

    def test_points_that_are_gone_over_once(self):
        for owner in (polyover, polyover.Scaled(1)):
            self.assertEqual(owner.simplify([[iter(point) for point in SQUARE]]), [[SQUARE]])
            with self.assertRaisesRegex(polyover.BadInput, "^shape: contour 1, point 4: .* is no point of two members"):
                owner.is_resolved([[*map(iter, SQUARE[:3]), iter([0])]])

    def test_types_without_an_order_or_without_numbers(self):
        # (each has two members: the point (0, 4), or its digits)
        for point in ({0, 4}, frozenset({0, 4}), {0: 1, 4: 1}, b"\x00\x04", bytearray(b"\x00\x04"), "04"):
            kind, contour = type(point).__name__, [(0, 0), point, (4, 4)]
            told = f": contour 2, point 2: {kind} in the place of a point$"
            for owner in (polyover, polyover.Scaled(1)):
                for name in ("overlay", "simplify", "edges", "intersects"):
                    given = [[SQUARE]] * (name == "intersects") + [[SQUARE, contour]]
                    with self.assertRaisesRegex(TypeError, told) as found:
                        getattr(owner, name)(*given)
                    self.assertIsInstance(found.exception, polyover.BadInput)
                with self.assertRaisesRegex(TypeError, f"^shape{told}"):
                    owner.slice([SQUARE, contour], [])
                with self.assertRaisesRegex(TypeError, f"^points, point 1: {kind} in the place of a point$"):
                    owner.locate([SQUARE], [point])
            for call in (polyover.Prepared, polyover.Arrangement, polyover.trace):
                with self.assertRaisesRegex(TypeError, f"point 2: {kind} in the place of a point$"):
                    call([contour])
            with self.assertRaisesRegex(TypeError, f"^the origin is no {kind}, but a point of two numbers$"):
                polyover.Scaled(1, point)

    def test_sets_of_points_and_of_contours(self):
        contour = frozenset([(0, 0), (4, 0), (4, 4)])
        for call in (polyover.overlay, polyover.Scaled(1).overlay):
            with self.assertRaisesRegex(TypeError, "^subject: contour 1: frozenset in the place of a list of points$"):
                call([contour])
            with self.assertRaisesRegex(TypeError, "^clip: set in the place of a list of contours$"):
                call([SQUARE], {tuple(SQUARE)})
        with self.assertRaisesRegex(TypeError, "^points: set in the place of a list of points$"):
            polyover.locate([SQUARE], {(1, 1)})

    def test_generators_are_gone_over_once(self):
        told = "a generator that was gone over before in the place of a list of"
        for owner in (polyover, polyover.Scaled(1)):
            contours = (each for each in [SQUARE])
            with self.assertRaisesRegex(polyover.BadInput, f"^clip: {told} contours$"):
                owner.overlay(contours, contours)
            points = (each for each in SQUARE)
            with self.assertRaisesRegex(polyover.BadInput, f"^clip: contour 1: {told} points$"):
                owner.overlay([points], [points])
            groups = (each for each in [[SQUARE]])
            self.assertEqual(owner.union_all(groups), owner.overlay([SQUARE]))
            with self.assertRaisesRegex(polyover.BadInput, f"^groups: {told} groups$"):
                owner.union_all(groups)
            queries = (each for each in [(1, 1)])
            self.assertEqual(owner.locate([SQUARE], queries), ["inside"])
            with self.assertRaisesRegex(polyover.BadInput, f"^points: {told} points$"):
                owner.locate([SQUARE], queries)
            self.assertEqual(owner.overlay((each for each in ()), ()), [])

    def test_minimum_area(self):
        for area in (-1, 2**127, 0.5):
            with self.assertRaises(polyover.BadInput):
                polyover.overlay([SQUARE], minimum_area=area)

    def test_grids(self):
        for width, height in ((0, 1), (1, -1), (LIMIT, 0)):
            with self.assertRaisesRegex(polyover.BadInput, "do not fit"):
                polyover.tiles([SQUARE], width, height)
        with self.assertRaisesRegex(polyover.BadInput, "do not fit"):
            polyover.tiles([[(0, 0), (1002, 0), (0, 1)]], 1, 1)
        with self.assertRaisesRegex(polyover.BadInput, "no whole number"):
            polyover.tiles([SQUARE], 0.5, 1)
        with self.assertRaisesRegex(polyover.BadInput, "^the height of cells: 4611686018427387904 is out of range"):
            polyover.tiles([SQUARE], 1, LIMIT + 1)
        with self.assertRaisesRegex(polyover.BadInput, "unknown fill rule"):
            polyover.tiles([SQUARE], 1, 1, "odd")

    def test_refusals(self):
        with self.assertRaises(polyover.NotSettled):
            polyover.overlay([UNSETTLED[0], UNSETTLED[1]], (), "clip", solver="rounds")

    def test_contour_that_meets_itself(self):
        with self.assertRaises(polyover.NotResolved) as found:
            polyover.locate([SQUARE, [(0, 0), (4, 4), (4, 0), (0, 4)]], [(1, 1)])
        self.assertEqual(found.exception.contour, 2)
        self.assertTrue(str(found.exception).startswith("contour 2 is not resolved"))

    def test_no_program(self):
        with mock.patch.dict(os.environ, {"POLYOVER_LIBRARY": "", "POLYOVER_PROGRAM": "/nowhere/polyover"}):
            with self.assertRaises(polyover.ProgramMissing):
                polyover.overlay([SQUARE])
