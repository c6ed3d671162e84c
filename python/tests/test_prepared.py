"""Prepared shapes: where points lie, by hand; what is refused; their memory; and several threads at once."""

import random
import unittest
from array import array
from concurrent.futures import ThreadPoolExecutor
from threading import Barrier
from time import process_time
from unittest import mock

import polyover
from polyover import library
from polyover.text import FILLS, RELATION_SOLVERS

from .rows import FRAME, HALL, NESTED, OTHER, SQUARE, UNSETTLED
from .there import ask_library_alone, asked_alone, older_library, with_library

try:
    import numpy
except ImportError:
    numpy = None

LIMIT = 4611686018427387903
IN, ON, OUT = "inside", "boundary", "outside"
# a square in which another runs the same way, and beside it one that runs the other way: they wind 1, 2 and -1 times
WOUND = [[(0, 0), (9, 0), (9, 9), (0, 9)], [(3, 3), (6, 3), (6, 6), (3, 6)], [(20, 0), (20, 9), (29, 9), (29, 0)]]
# (in the outer square alone, in the inner square, on its edge, in the reversed square, on its edge, on the outer edge)
ASKED = [(1, 1), (4, 4), (3, 5), (25, 5), (29, 5), (0, 9)]
# (it runs round the left half once, and round the right half once the other way)
BOW = [(0, 0), (4, 4), (4, 0), (0, 4)]
# (in its left half, in its right one, where they meet, above that)
HALVES = [(1, 2), (3, 2), (2, 2), (2, 3)]


@with_library
class ByHand(unittest.TestCase):
    """Locations that are told by hand."""

    def setUp(self):
        ask_library_alone(self)

    def located(self, shape, expected, *given, **options):
        """That points lie where they should: a dictionary."""
        for solver in (None, *RELATION_SOLVERS):
            prepared = polyover.Prepared(shape, *given, solver=solver, **options)
            self.assertEqual(prepared.locate(list(expected)), list(expected.values()))
            self.assertEqual(prepared.contains(list(expected)), [word == IN for word in expected.values()])

    def test_a_square(self):
        corners = dict.fromkeys(SQUARE, ON)
        beside = dict.fromkeys([(5, 0), (-1, 0), (5, 4), (0, 5), (0, -1), (9, 9), (2, -1), (2, 5)], OUT)
        for shape in (SQUARE, SQUARE[::-1], SQUARE[2:] + SQUARE[:2]):
            self.located([shape], {(2, 2): IN, (4, 1): ON, (1, 0): ON, (3, 3): IN, **corners, **beside})

    def test_closed_rings_and_points_on_one_line(self):
        for shape in ([*SQUARE, SQUARE[0]], [(0, 0), (0, 0), (2, 0), (4, 0), (4, 4), (4, 4), (0, 4)]):
            self.located([shape], {(2, 0): ON, (0, 0): ON, (2, 2): IN, (4, 5): OUT})

    def test_a_hole(self):
        places = {(6, 4): OUT, (5, 4): ON, (7, 5): ON, (5, 3): ON, (1, 1): IN, (8, 4): IN, (12, 4): ON, (13, 4): OUT}
        self.located(HALL, places)
        # (the hole runs the other way: evenodd leaves it out in either direction)
        self.located([HALL[0], HALL[1][::-1]], places, "evenodd")
        self.located([HALL[0], HALL[1][::-1]], {**places, (6, 4): IN, (5, 4): IN, (7, 5): IN, (5, 3): IN})

    def test_slopes(self):
        triangle = [(0, 0), (6, 0), (0, 3)]
        places = {(2, 2): ON, (4, 1): ON, (3, 1): IN, (1, 2): IN, (3, 2): OUT, (5, 1): OUT, (1, 3): OUT}
        self.located([triangle], places)

    def test_each_fill_rule(self):
        expected = {
            "evenodd": [IN, OUT, ON, IN, ON, ON],
            "nonzero": [IN, IN, IN, IN, ON, ON],
            "positive": [IN, IN, IN, OUT, OUT, ON],
            "negative": [OUT, OUT, OUT, IN, ON, OUT],
        }
        halves = {
            "evenodd": [IN, IN, ON, OUT],
            "nonzero": [IN, IN, ON, OUT],
            "positive": [IN, OUT, ON, OUT],
            "negative": [OUT, IN, ON, OUT],
        }
        self.assertEqual(set(expected), set(FILLS))
        for fill in FILLS:
            self.located(WOUND, dict(zip(ASKED, expected[fill])), fill)
            self.located([BOW], dict(zip(HALVES, halves[fill])), fill)
        self.located(WOUND, dict(zip(ASKED, expected["nonzero"])))

    def test_contours_that_meet(self):
        beside = [(4, 0), (8, 0), (8, 4), (4, 4)]
        self.located([SQUARE, beside], {(4, 2): IN, (4, 0): ON, (4, 4): ON, (8, 2): ON, (6, 2): IN})
        self.located([SQUARE, OTHER], {(3, 3): IN, (2, 3): IN, (4, 3): IN, (4, 2): ON, (4, 1): ON, (5, 1): OUT})
        self.located([SQUARE, OTHER], {(3, 3): OUT, (2, 3): ON, (4, 3): ON, (4, 2): ON, (1, 1): IN}, "evenodd")
        self.located([SQUARE, SQUARE], {(2, 2): OUT, (0, 0): OUT, (4, 1): OUT}, "evenodd")
        self.located([SQUARE, SQUARE[::-1]], {(2, 2): OUT, (0, 0): OUT, (4, 1): OUT})

    def test_without_a_boundary(self):
        for shape in ([], [[]], [[(1, 1)]], [[(0, 0), (4, 4)]], [[(0, 0), (2, 2), (4, 4)]], [[], [(7, 7), (7, 7)]]):
            self.located(shape, {(1, 1): OUT, (0, 0): OUT, (2, 2): OUT, (7, 7): OUT})

    def test_the_range(self):
        whole = [(-LIMIT, -LIMIT), (LIMIT, -LIMIT), (LIMIT, LIMIT), (-LIMIT, LIMIT)]
        inside = {(0, 0): IN, (LIMIT - 1, 1 - LIMIT): IN}
        self.located([whole], {**inside, (LIMIT, 0): ON, (-LIMIT, -LIMIT): ON, (5, LIMIT): ON})
        half = [(-LIMIT, -LIMIT), (LIMIT, -LIMIT), (-LIMIT, LIMIT)]
        self.located([half], {(0, 0): ON, (1, 0): OUT, (-1, 0): IN, (LIMIT, -LIMIT): ON, (LIMIT, LIMIT): OUT})

    def test_no_points(self):
        prepared = polyover.Prepared([SQUARE])
        for points in ([], (), iter(()), array("q")):
            self.assertEqual((prepared.locate(points), prepared.contains(points)), ([], []))
        self.assertEqual(len(prepared.locate([], arrays=True)), 0)
        self.assertEqual(len(prepared.contains([], arrays=True)), 0)

    def test_at_a_scale(self):
        tenths = polyover.Scaled(10, (100, 0))
        square = [(100, 0), (100.4, 0), (100.4, 0.4), (100, 0.4)]
        prepared = tenths.prepared([square])
        points = [(100.2, 0.2), (100.4, 0.1), (100.44, 0.1), (100.46, 0.1), (0, 0)]
        self.assertEqual(prepared.locate(points), [IN, ON, ON, OUT, OUT])
        self.assertEqual(prepared.contains(points), [True, False, False, False, False])
        self.assertEqual(prepared.locate(points, arrays=True).tolist(), [1, 2, 2, 0, 0])
        self.assertEqual(tenths.locate([square], points, arrays=True).tolist(), [1, 2, 2, 0, 0])
        polygon = {"type": "Polygon", "coordinates": [[*square, square[0]]]}
        self.assertEqual(tenths.prepared(polygon, "evenodd", solver="rounds").locate(points), [IN, ON, ON, OUT, OUT])
        with self.assertRaisesRegex(polyover.BadInput, "points, point 2: .* is no point of two finite numbers"):
            prepared.locate([(0, 0), (float("nan"), 0)])


@with_library
class Arrays(unittest.TestCase):
    """Contours and points in arrays."""

    POINTS = [(6, 4), (5, 4), (1, 1), (13, 4)]
    WORDS = [OUT, ON, IN, OUT]

    def setUp(self):
        ask_library_alone(self)

    def test_answers(self):
        prepared = polyover.Prepared(polyover.FlatShapes.of([HALL]).contours)
        self.assertEqual(polyover.LOCATIONS, ("outside", "inside", "boundary"))
        found = prepared.locate(self.POINTS, arrays=True)
        self.assertEqual((found.format, found.tolist()), ("B", [0, 2, 1, 0]))
        truths = prepared.contains(self.POINTS, arrays=True)
        self.assertEqual((truths.format, truths.tolist()), ("?", [False, False, True, False]))
        self.assertEqual(polyover.locate(HALL, self.POINTS, arrays=True).tolist(), [0, 2, 1, 0])

    def test_points_by_the_buffer_protocol(self):
        prepared = polyover.Prepared(HALL)
        numbers = array("q", [value for point in self.POINTS for value in point])
        for shape in ((4, 2), (2, 2)):
            rows = memoryview(numbers)[: 2 * shape[0]].cast("B").cast("q", shape)
            self.assertEqual(prepared.locate(rows), self.WORDS[: shape[0]])
            self.assertEqual(prepared.locate(rows.toreadonly()), self.WORDS[: shape[0]])

    @unittest.skipIf(numpy is None, "no python3 here has NumPy (Debian's python3-numpy)")
    def test_numpy(self):
        prepared = polyover.Prepared([numpy.array(contour) for contour in HALL])
        points = numpy.array(self.POINTS)
        twice = numpy.repeat(points, 2, axis=0)
        for given in (points, points.astype("int32"), twice[::2], points[::-1][::-1], points.T.copy().T, list(points)):
            self.assertEqual(prepared.locate(given), self.WORDS)
        found = numpy.asarray(prepared.contains(points, arrays=True))
        self.assertEqual((found.dtype, found.tolist()), (numpy.bool_, [False, False, True, False]))
        self.assertEqual(numpy.asarray(prepared.locate(points, arrays=True)).dtype, numpy.uint8)

    def test_what_was_given_may_go(self):
        numbers = array("q", [value for contour in HALL for point in contour for value in point])
        prepared = polyover.Prepared(polyover.Flat(numbers, [4, 8]))
        numbers[:] = array("q", [0] * len(numbers))
        self.assertEqual(prepared.locate(self.POINTS), self.WORDS)


class Refused(unittest.TestCase):
    """What cannot be asked."""

    @with_library
    def test_shapes(self):
        ask_library_alone(self)
        wrong = {
            "shape: 3 in the place of a list of contours": 3,
            "shape: contour 2: 7 in the place of a list of points": [SQUARE, 7],
            "shape: contour 1, point 1: 0 is no point": SQUARE,
            "shape: contour 2, point 1: 0.5 is no whole number": [SQUARE, [(0.5, 0), (1, 0), (1, 1)]],
            f"shape: contour 1, point 2: {LIMIT + 1} is out of range": [[(0, 0), (LIMIT + 1, 0), (1, 1)]],
        }
        for told, shape in wrong.items():
            with self.assertRaisesRegex(polyover.BadInput, told):
                polyover.Prepared(shape)
        for owner in (polyover.Prepared, polyover.Scaled(1).prepared):
            with self.assertRaisesRegex(polyover.BadInput, "unknown fill rule 'odd'"):
                owner([SQUARE], "odd")
            with self.assertRaisesRegex(polyover.BadInput, "unknown solver 'snap'"):
                owner([SQUARE], solver="snap")
        with self.assertRaisesRegex(polyover.NotSettled, "64 rounds"):
            polyover.Prepared(UNSETTLED, solver="rounds")
        self.assertEqual(polyover.Prepared(UNSETTLED, solver="snapped").locate([(2, 67)]), [OUT])

    @with_library
    def test_points(self):
        ask_library_alone(self)
        prepared = polyover.Prepared([SQUARE])
        wrong = {
            "points: 3 in the place of a list of points": 3,
            "points, point 1: 1 is no point": (1, 2),
            r"points, point 2: \(1, 2, 3\) is no point of two members": [(0, 0), (1, 2, 3)],
            "points, point 2: 0.5 is no whole number": [(0, 0), (0.5, 1)],
            "points, point 2: None is no whole number": [(0, 0), (1, None)],
            f"points, point 3: -{LIMIT + 1} is out of range": [(0, 0), (1, 1), (2, -LIMIT - 1)],
            f"points, point 1: {2**80} is out of range": [(2**80, 1)],
        }
        for told, points in wrong.items():
            for asked in (prepared.locate, prepared.contains):
                with self.assertRaisesRegex(polyover.BadInput, told):
                    asked(points)
        far = memoryview(array("q", [0, 0, LIMIT + 1, 0])).cast("B").cast("q", (2, 2))
        with self.assertRaisesRegex(polyover.BadInput, f"points, point 2: {LIMIT + 1} is out of range"):
            prepared.locate(far)
        self.assertEqual(prepared.locate([(2, 2)]), [IN])

    def test_the_program_alone(self):
        asked_alone(self, POLYOVER_PROGRAM="/nowhere/polyover")
        for owner in (polyover.Prepared, polyover.Scaled(1).prepared):
            with self.assertRaisesRegex(polyover.LibraryMissing, "no library that has prepared shapes"):
                owner([SQUARE])

    @with_library
    def test_an_older_library(self):
        ask_library_alone(self)
        with older_library("polyover_prepare", "polyover_prepare_exact"):
            with self.assertRaisesRegex(polyover.LibraryMissing, "no library that has prepared shapes"):
                polyover.Prepared([SQUARE])


@with_library
class Memory(unittest.TestCase):
    """Memory is given back once, whichever way a shape goes."""

    def setUp(self):
        ask_library_alone(self)
        self.freed = []
        functions = library.library().functions
        for name in ("polyover_prepared_free", "polyover_exact_free"):
            free = getattr(functions, name)
            patch = mock.patch.object(functions, name, lambda it, free=free: self.freed.append(free(it)))
            patch.start()
            self.addCleanup(patch.stop)

    def test_closed(self):
        prepared = polyover.Prepared(FRAME)
        prepared.close()
        self.assertEqual(len(self.freed), 1)
        prepared.close()
        for asked in (prepared.locate, prepared.contains):
            with self.assertRaisesRegex(polyover.BadInput, "was closed"):
                asked([(0, 0)])
        del prepared
        self.assertEqual(len(self.freed), 1)

    def test_with(self):
        with polyover.Prepared(FRAME) as prepared:
            self.assertEqual(prepared.locate([(1, 0)]), [ON])
            self.assertEqual(self.freed, [])
        self.assertEqual(len(self.freed), 1)
        with self.assertRaisesRegex(ValueError, "closed"), polyover.Scaled(1).prepared(FRAME) as prepared:
            prepared.close()
            prepared.locate([(1, 0)])
        self.assertEqual(len(self.freed), 2)

    def test_forgotten(self):
        shapes = [polyover.Prepared(NESTED, "evenodd") for _ in range(9)]
        self.assertEqual(shapes.pop().locate([(2, 2), (1, 1)]), [ON, ON])
        shapes.clear()
        self.assertEqual(len(self.freed), 9)

    def test_nothing_is_taken_where_it_is_refused(self):
        with self.assertRaises(polyover.NotSettled):
            polyover.Prepared(UNSETTLED, solver="rounds")
        self.assertEqual(self.freed, [])

    def test_threads(self):
        prepared, count = polyover.Prepared(HALL), 8
        chance = random.Random(1)
        points = [(chance.randint(0, 12), chance.randint(0, 8)) for _ in range(2000)]
        expected, start = prepared.locate(points), Barrier(count)

        def asked(at):
            start.wait()
            found = [prepared.locate(points) for _ in range(20)]
            return found if at else prepared.close() or found

        with ThreadPoolExecutor(count) as threads:
            answers = list(threads.map(lambda at: answered(asked, at), range(count)))
        for found in answers:
            self.assertTrue(found == "closed" or found == [expected] * 20)
        self.assertEqual(len(self.freed), 1)


def answered(call, *given):
    """What a call answers, or that the shape was closed."""
    try:
        return call(*given)
    except polyover.BadInput as fault:
        return "closed" if "was closed" in str(fault) else str(fault)


@with_library
class Large(unittest.TestCase):
    """100,000 edges and 100,000 points, in a bounded time."""

    COUNT, SECONDS = 100_000, 60

    def setUp(self):
        ask_library_alone(self)

    def timed(self, contours, points, expected):
        """That points lie where they should, soon enough."""
        begun = process_time()
        numbers = polyover.FlatShapes.of([contours]).contours
        found = polyover.Prepared(numbers).locate(points)
        self.assertLess(process_time() - begun, self.SECONDS)
        self.assertEqual(found, [expected(*point) for point in points])

    def test_squares(self):
        # (side by side in 250 columns, of side 2, apart by 2)
        contours = []
        for x in range(0, 1000, 4):
            contours += [[(x, y), (x + 2, y), (x + 2, y + 2), (x, y + 2)] for y in range(0, 400, 4)]
        self.assertEqual(4 * len(contours), self.COUNT)
        chance = random.Random(2)
        points = [(chance.randint(-3, 1003), chance.randint(-3, 403)) for _ in range(self.COUNT)]

        def expected(x, y):
            if not (0 <= x < 1000 and 0 <= y < 400) or 3 in (x % 4, y % 4):
                return OUT
            return IN if (x % 4, y % 4) == (1, 1) else ON

        self.timed(contours, points, expected)

    def test_a_saw(self):
        # (teeth of height 100, 10 wide on either side, on a beam of height 5)
        teeth = self.COUNT - 3
        contour = [(10 * at, 100 * (at % 2)) for at in range(teeth + 1)]
        end = contour[-1][0]
        contour += [(end, -5), (0, -5)]
        self.assertEqual(len(contour), self.COUNT)
        chance = random.Random(3)
        points = [(chance.randint(-9, end + 9), chance.randint(-9, 109)) for _ in range(self.COUNT - 2000)]
        for x in (chance.randint(0, end) for _ in range(2000)):
            points.append((x, 10 * min(x % 20, 20 - x % 20)))

        def expected(x, y):
            top = 10 * min(x % 20, 20 - x % 20)
            if not (0 <= x <= end and -5 <= y <= top):
                return OUT
            return ON if x in (0, end) or y in (-5, top) else IN

        self.timed([contour], points, expected)


if __name__ == "__main__":
    unittest.main()
