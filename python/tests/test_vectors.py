"""Shapes with the filled sides of each step: answers by hand, and what is refused."""

import unittest

import polyover
from polyover.contour import double_area
from polyover.text import SOLVERS

from .rows import FRAME, OTHER, SQUARE, UNSETTLED
from .there import ask_library_alone, asked_alone, older_library, with_library

LIMIT = 4611686018427387903


def turned(contour):
    """A contour by its points and sides, begun at the least, since that is left open."""
    start = min(range(len(contour)), key=contour.__getitem__)
    return contour[start:] + contour[:start]


def points_of(shapes):
    """The contours of shapes by their points, each with the sides of the step that begins there; it is tested that each
    step begins where the one before it ends."""
    for shape in shapes:
        for contour in shape:
            assert all(step.b == behind.a for step, behind in zip(contour, contour[1:] + contour[:1]))
    return [[turned([(step.a, step.fill) for step in contour]) for contour in shape] for shape in shapes]


@with_library
class Answers(unittest.TestCase):
    """What is told. (The squares cross in (4, 2) and (2, 4). 1 is the left of the subject, 2 its right; 4 and 8 are
    those of the clip.)"""

    def setUp(self):
        ask_library_alone(self)

    def told(self, *given, **options):
        """The contours by their points."""
        return points_of(polyover.vectors(*given, **options))

    def test_squares(self):
        both = [((2, 2), 7), ((4, 2), 13), ((4, 4), 13), ((2, 4), 7)]
        back = [((2, 2), 11), ((2, 4), 14), ((4, 4), 14), ((4, 2), 11)]
        for solver in SOLVERS:
            self.assertEqual(self.told([SQUARE], [OTHER], "intersect", solver=solver), [[both]])
        self.assertEqual(self.told([SQUARE], [OTHER], "intersect", clockwise=True), [[back]])
        found = polyover.vectors([SQUARE])[0][0][0]
        self.assertIsInstance(found, polyover.VectorEdge)
        self.assertEqual((found.a, found.b, found.fill), found)

    def test_points_between_steps_whose_sides_differ(self):
        # (the sides of the subject to the right and above are cut where the clip begins)
        round_one = [((0, 0), 1), ((4, 0), 1), ((4, 2), 13), ((4, 4), 13), ((2, 4), 1), ((0, 4), 1)]
        of_clip = [((4, 2), 4), ((6, 2), 4), ((6, 6), 4), ((2, 6), 4)]
        united = [((0, 0), 1), ((4, 0), 1), *of_clip, ((2, 4), 1), ((0, 4), 1)]
        self.assertEqual(self.told([SQUARE], [OTHER], "subject"), [[round_one]])
        self.assertEqual(self.told([SQUARE], [OTHER]), [[united]])
        line = [(0, 0), (2, 0), (4, 0), (4, 4)]
        self.assertEqual(self.told([line], keep=True), [[[((0, 0), 1), ((4, 0), 1), ((4, 4), 1)]]])

    def test_holes(self):
        # (the region is on the left of each step)
        outline, hole = ([(point, 4) for point in contour] for contour in FRAME)
        self.assertEqual(self.told([], FRAME, "clip", "evenodd"), [[outline, hole]])

    def test_at_a_scale(self):
        # (a geometry is the region that its polygon covers, whichever way the rings run)
        rings = [[(x / 2, y / 2) for x, y in contour] for contour in FRAME]
        wanted = [[[((x / 2, y / 2), 4) for x, y in contour] for contour in FRAME]]
        for hole in (rings[1], rings[1][::-1]):
            shape = {"type": "Polygon", "coordinates": [rings[0], hole]}
            self.assertEqual(points_of(polyover.Scaled(2).vectors([], shape, "clip")), wanted)
        self.assertEqual(points_of(polyover.Scaled(2).vectors([], rings, "clip", "evenodd")), wanted)
        # (in squares of the unit the hole has 3/4, and the outline 15/4)
        least = polyover.Scaled(2).vectors([], rings, "clip", "evenodd", minimum_area=1)
        self.assertEqual(points_of(least), [wanted[0][:1]])

    def test_small_contours(self):
        self.assertEqual(len(self.told([SQUARE], [OTHER], "intersect", minimum_area=4)), 1)
        self.assertEqual(self.told([SQUARE], [OTHER], "intersect", minimum_area=5), [])
        self.assertEqual(self.told([]), [])

    def test_regions_are_those_of_overlays(self):
        for rule in ("subject", "clip", "intersect", "union", "difference", "inverse_difference", "xor"):
            given = [SQUARE, [(1, 3), (5, 0), (7, 5)]], [OTHER], rule, "evenodd"
            steps = (step for shape in polyover.vectors(*given) for contour in shape for step in contour)
            area = sum(a[0] * b[1] - a[1] * b[0] for a, b, _ in steps)
            shapes = polyover.overlay(*given)
            self.assertEqual(area, sum(double_area(contour) for shape in shapes for contour in shape))


class Refused(unittest.TestCase):
    """What cannot be asked."""

    @with_library
    def test_arguments(self):
        ask_library_alone(self)
        for told, given, options in (
            ("clip: contour 1, point 2: 0.5 is no whole number", ([SQUARE], [[(0, 0), (0.5, 0), (1, 1)]]), {}),
            (f"subject: contour 1, point 1: {LIMIT + 1} is out of range", ([[(LIMIT + 1, 0), (1, 0)]],), {}),
            ("unknown rule None", ([SQUARE], (), None), {}),
            ("unknown fill rule 'odd'", ([SQUARE],), {"fill": "odd"}),
            ("unknown solver 'exact'", ([SQUARE],), {"solver": "exact"}),
            ("the minimum area -1 is not from 0", ([SQUARE],), {"minimum_area": -1}),
        ):
            with self.assertRaisesRegex(polyover.BadInput, told):
                polyover.vectors(*given, **options)
        with self.assertRaisesRegex(polyover.NotSettled, "64 rounds"):
            polyover.vectors(UNSETTLED, solver="rounds")

    def test_the_program_alone(self):
        asked_alone(self, POLYOVER_PROGRAM="/nowhere/polyover")
        with self.assertRaisesRegex(polyover.LibraryMissing, "no library that tells filled sides"):
            polyover.vectors([SQUARE])

    @with_library
    def test_an_older_library(self):
        ask_library_alone(self)
        with older_library("polyover_vectors_result"):
            with self.assertRaisesRegex(polyover.LibraryMissing, "no library that tells filled sides"):
                polyover.vectors([SQUARE])


if __name__ == "__main__":
    unittest.main()
