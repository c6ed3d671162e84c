"""Contours and shapes in arrays: the same answers as of lists, without a copy where they are in one."""

import copy
import pickle
import random
import unittest
from array import array

import polyover
from polyover import by_library, library

from .rows import BAR, FRAME, HALL, OTHER, SQUARE, WALLS
from .there import ask_program_alone, with_library, with_program

try:
    import numpy
except ImportError:
    numpy = None


def flat(paths):
    """Paths in arrays of Python's own."""
    ends = []
    for path in paths:
        ends.append((ends[-1] if ends else 0) + len(path))
    return polyover.Flat(array("q", [value for path in paths for point in path for value in point]), array("Q", ends))


class Arrays(unittest.TestCase):
    """Arrays of Python, by the buffer protocol."""

    def test_as_lists(self):
        frame, bar, hall, walls = map(flat, (FRAME, BAR, HALL, WALLS))
        self.assertEqual(list(frame), FRAME)
        for arrays in (False, True):
            answers = [
                (polyover.overlay(frame, bar, arrays=arrays), polyover.overlay(FRAME, BAR)),
                (polyover.overlay(frame, BAR, "xor", arrays=arrays), polyover.overlay(FRAME, BAR, "xor")),
                (polyover.simplify(frame, arrays=arrays), polyover.simplify(FRAME)),
                (polyover.slice(hall, walls, "evenodd", arrays=arrays), polyover.slice(HALL, WALLS, "evenodd")),
                (polyover.tiles(hall, 5, 5, arrays=arrays), polyover.tiles(HALL, 5, 5)),
                (polyover.clip(hall, walls, arrays=arrays), polyover.clip(HALL, WALLS)),
                (polyover.overlay([], [], arrays=arrays), []),
                (polyover.clip([], [], arrays=arrays), []),
            ]
            for found, expected in answers:
                self.assertEqual((list(found), len(found)), (list(expected), len(expected)))
        self.assertEqual(polyover.relate(frame, bar), polyover.relate(FRAME, BAR))
        self.assertEqual(polyover.edges(frame, bar), polyover.edges(FRAME, BAR))
        self.assertEqual(polyover.locate(frame, [(2, 3), (1, 1)]), polyover.locate(FRAME, [(2, 3), (1, 1)]))

    def test_at_a_scale(self):
        shapes = polyover.overlay([SQUARE], arrays=True)
        for given in (flat([SQUARE]), shapes, shapes.contours):
            self.assertEqual(polyover.Scaled(1).overlay(given), polyover.overlay([SQUARE]))

    def test_answers_at_a_scale(self):
        tenths = polyover.Scaled(10, (100, 0))
        square, other = ([(100 + x / 10, y / 10) for x, y in each] for each in (SQUARE, OTHER))
        line = [[(100, 0.1), (101, 0.1)]]
        for found, expected in (
            (tenths.overlay([square], [other], arrays=True), tenths.overlay([square], [other])),
            (tenths.simplify([square], arrays=True), tenths.simplify([square])),
            (tenths.slice([square], line, arrays=True), tenths.slice([square], line)),
            (tenths.tiles([square], 0.3, 0.3, arrays=True), tenths.tiles([square], 0.3, 0.3)),
            (tenths.clip([square], line, arrays=True), tenths.clip([square], line)),
            (tenths.overlay([], arrays=True), []),
            (tenths.clip([], [], arrays=True), []),
        ):
            contours = found.contours if isinstance(found, polyover.FlatShapes) else found
            self.assertIsInstance(contours, polyover.FlatFloats)
            self.assertEqual((list(found), contours.coordinates.format), (list(expected), "d"))
        shapes = tenths.overlay([square], [other], "difference", arrays=True)
        points = [(100, 0.4), (100, 0), (100.4, 0), (100.4, 0.2), (100.2, 0.2), (100.2, 0.4)]
        self.assertEqual(shapes.contours.coordinates.tolist(), [list(point) for point in points])
        for again in (shapes, shapes.contours, polyover.FlatFloats(shapes.contours.coordinates, [6])):
            self.assertEqual(tenths.overlay(again, [other]), tenths.overlay([square], [other]))
        for call in (polyover.overlay, polyover.is_resolved):
            with self.assertRaisesRegex(polyover.BadInput, "an array of floats: Scaled takes floats"):
                call(shapes.contours)

    def test_copies(self):
        shapes = polyover.overlay(FRAME, BAR, "xor", arrays=True)
        floats = polyover.Scaled(10).overlay(FRAME, BAR, "xor", arrays=True)
        paths = polyover.clip(HALL, WALLS, arrays=True)
        empty = polyover.overlay([], arrays=True)
        passed = flat(FRAME), shapes.contours, paths, empty.contours
        for each in passed:
            polyover.edges(each)
        for given in (*passed, shapes, floats, floats.contours, empty):
            for copied in (pickle.loads(pickle.dumps(given)), copy.copy(given), copy.deepcopy(given)):
                self.assertEqual((type(copied), list(copied)), (type(given), list(given)))
        again = pickle.loads(pickle.dumps(shapes))
        del shapes
        self.assertEqual(polyover.overlay(again.contours), polyover.overlay(FRAME, BAR, "xor"))

    def test_buffers_of_two_dimensions(self):
        bar = memoryview(array("q", [value for point in BAR[0] for value in point])).cast("B").cast("q", (4, 2))
        self.assertEqual(polyover.overlay(FRAME, [bar], "xor"), polyover.overlay(FRAME, BAR, "xor"))
        self.assertEqual(polyover.relate(FRAME, [bar.toreadonly()]), polyover.relate(FRAME, BAR))
        self.assertEqual(polyover.simplify([bar]), polyover.simplify(BAR))
        self.assertEqual(polyover.locate([bar], bar), ["boundary"] * 4)
        self.assertEqual(polyover.Scaled(1).overlay([bar]), polyover.overlay(BAR))
        self.assertEqual(polyover.Scaled(1).locate([bar], bar), ["boundary"] * 4)

    def test_an_answer_is_given_again(self):
        shapes = polyover.overlay([SQUARE], [OTHER], "difference", arrays=True)
        joined = polyover.overlay(shapes.contours, [OTHER], "union", arrays=True)
        self.assertEqual(list(joined), polyover.overlay([SQUARE], [OTHER]))
        self.assertEqual(shapes.__geo_interface__, polyover.overlay([SQUARE], [OTHER], "difference").__geo_interface__)

    def test_arrays_that_change(self):
        given = flat([SQUARE])
        self.assertEqual(polyover.overlay(given), polyover.overlay([SQUARE]))
        given.numbers[2] = given.numbers[4] = 8
        self.assertEqual(list(given), [[(0, 0), (8, 0), (8, 4), (0, 4)]])
        self.assertEqual(polyover.overlay(given), polyover.overlay([[(0, 0), (8, 0), (8, 4), (0, 4)]]))
        given.numbers[2] = 2**62
        for asked in (polyover.overlay, polyover.is_resolved, polyover.edges, polyover.simplify):
            with self.assertRaisesRegex(polyover.BadInput, "contour 1, point 2: 4611686018427387904 is out of range"):
                asked(given)
        with self.assertRaisesRegex(polyover.BadInput, "shape: contour 1, point 2: 4611686018427387904 is out of"):
            polyover.tiles(given, 1, 1)
        given.counts[0] = 5
        with self.assertRaisesRegex(polyover.BadInput, "^clip: ends: they do not rise from 0 to the number of points"):
            polyover.overlay([SQUARE], given)

    def test_copies_of_arrays_that_change(self):
        # (the library can't be told where these are: they are copied)
        numbers = array("q", [9, 9, 0, 0, 4, 0, 4, 4, 0, 4])
        given = polyover.Flat(memoryview(numbers).toreadonly()[2:], [4])
        self.assertEqual(polyover.simplify(given), [[SQUARE]])
        numbers[4] = numbers[6] = 8
        self.assertEqual(polyover.simplify(given), [[[(0, 0), (8, 0), (8, 4), (0, 4)]]])

    def test_faults(self):
        far = array("q", [0, 0, 2**62, 0, 1, 1])
        with self.assertRaisesRegex(polyover.BadInput, "subject: contour 1, point 2: 4611686018427387904 is out of"):
            polyover.overlay(polyover.Flat(far, [3]))
        one, four, none = array("q", [0, 0]), array("q", [0] * 8), array("q")
        with self.assertRaisesRegex(polyover.BadInput, "coordinates: no array of float64"):
            polyover.FlatFloats(array("q", [0, 0]), [1])
        wrong = (array("d", [0, 0]), [1]), ([0, 0], [1]), (one, [2]), (none, array("d")), (four, [5, 4]), (one, [-1, 1])
        for coordinates, ends in wrong:
            with self.assertRaises(polyover.BadInput):
                polyover.Flat(coordinates, ends)
        contours = flat([SQUARE, OTHER])
        self.assertEqual(list(polyover.FlatShapes(contours, array("Q", [1, 2]))), [[SQUARE], [OTHER]])
        for ends in ([], [1], [3], [2, 1], [2, 1, 2]):
            with self.assertRaisesRegex(polyover.BadInput, "^shape ends: they do not rise from 0 to the number of con"):
                polyover.FlatShapes(contours, array("Q", ends))

    @unittest.skipIf(numpy is None, "no python3 here has NumPy (Debian's python3-numpy)")
    def test_numpy(self):
        chance = random.Random(11)
        contours = [[(chance.randint(0, 99), chance.randint(0, 99)) for _ in range(9)] for _ in range(5)]
        arrays = [numpy.array(contour) for contour in contours]
        expected = polyover.overlay(contours)
        frozen = [numpy.array(contour) for contour in contours]
        for each in frozen:
            each.flags.writeable = False
        for given in (arrays, frozen, [arrays[0], *contours[1:]], numpy.array(contours)):
            self.assertEqual(polyover.overlay(given), expected)
        self.assertEqual(polyover.overlay(frozen[:1]), polyover.overlay(contours[:1]))
        every = polyover.Flat(numpy.concatenate(arrays), numpy.cumsum([9] * 5))
        self.assertEqual(polyover.overlay(every), expected)
        found = polyover.overlay(every, arrays=True)
        points = numpy.asarray(found.contours.coordinates)
        self.assertEqual((points.dtype, points.shape[1]), (numpy.int64, 2))
        self.assertEqual(points.tolist(), [list(point) for shape in expected for contour in shape for point in contour])
        for other in (arrays[0][::2], arrays[0].astype("int32"), arrays[0].T.copy().T):
            self.assertEqual(polyover.overlay([other]), polyover.overlay([other.tolist()]))

    @unittest.skipIf(numpy is None, "no python3 here has NumPy (Debian's python3-numpy)")
    def test_parts_of_frozen_arrays(self):
        numbers, ends = numpy.array([9, 9, 0, 0, 4, 0, 4, 4, 0, 4]), numpy.array([1, 4])
        for frozen in (numbers, ends):
            frozen.flags.writeable = False
        part = memoryview(numbers)[2:]
        for given in (polyover.Flat(part, memoryview(ends)[1:]), [part.cast("B").cast("q", (4, 2))]):
            self.assertEqual(polyover.simplify(given), [[SQUARE]])

    @unittest.skipIf(numpy is None, "no python3 here has NumPy (Debian's python3-numpy)")
    def test_masked_numbers(self):
        square = numpy.ma.array(SQUARE, mask=[(False, False), (True, False), (False, False), (False, False)])
        for owner, told in ((polyover, "None is no whole number"), (polyover.Scaled(1), "is no point of two finite")):
            for many in (1, 100):
                with self.assertRaisesRegex(polyover.BadInput, f"^subject: contour 1, point 2: .*{told}"):
                    owner.overlay([numpy.ma.concatenate([square] * many)])
        for made, given in ((polyover.Flat, square), (polyover.FlatFloats, square.astype(float))):
            with self.assertRaisesRegex(polyover.BadInput, "^coordinates: some numbers are masked$"):
                made(given, [4])
        self.assertEqual(polyover.simplify([numpy.ma.array(SQUARE)]), [[SQUARE]])
        self.assertEqual(polyover.simplify(polyover.Flat(numpy.ma.array(SQUARE), [4])), [[SQUARE]])

    @unittest.skipIf(numpy is None, "no python3 here has NumPy (Debian's python3-numpy)")
    def test_other_shapes(self):
        # (x-coordinates, and then y-coordinates, are no points)
        for made, kind in ((polyover.Flat, "int64"), (polyover.FlatFloats, "float64")):
            for shape in ((2, 4), (4, 1, 2), (1, 4, 2), ()):
                with self.assertRaisesRegex(polyover.BadInput, "^coordinates: an array of shape .* in the place of"):
                    made(numpy.zeros(shape, kind), [4])
            with self.assertRaisesRegex(polyover.BadInput, "^ends: an array of shape .* in the place of"):
                made(numpy.zeros((4, 2), kind), numpy.full((1, 1), 4))
            self.assertEqual(list(made(numpy.zeros((0, 2), kind), [0])), [[]])


@with_library
class Addresses(unittest.TestCase):
    """What the library is given and gives is where it was."""

    def test_no_copy(self):
        given = array("q", [0, 0, 4, 0, 4, 4])
        passed = library.library().contours(polyover.Flat(given, [3]))
        self.assertEqual(passed.coordinates, given.buffer_info()[0])
        look = polyover.calls.look_of(True, False, False, 0, "snapped")
        found = by_library.overlay([SQUARE], (), "union", "nonzero", look)
        self.assertEqual(len(found), 1)
        answer = polyover.overlay([SQUARE], arrays=True).contours.numbers
        self.assertNotIsInstance(answer.obj, array)

    def test_memory_stays_as_long_as_an_array(self):
        asked, freed = library.library(), []
        numbers = by_library.RULE_NUMBERS["union"], by_library.FILL_NUMBERS["nonzero"]
        look = by_library.options(polyover.calls.look_of(True, False, False, 0, "snapped"))
        both = asked.contours([SQUARE]), asked.contours([OTHER])
        held = asked.answer("polyover_overlay_result", *numbers, look, *both)
        held.free = lambda pointer, free=held.free: freed.append(free(pointer))
        arrays = [held.coordinates, memoryview(held.contour_ends), held.shape_ends[:1]]
        expected = [each.tolist() for each in arrays]
        del held
        while arrays:
            self.assertEqual((freed, [each.tolist() for each in arrays]), ([], expected[: len(arrays)]))
            arrays.pop()
        self.assertEqual(freed, [None])


@with_program
class ArraysOfTheProgram(Arrays):
    """The same, where the program is asked."""

    def setUp(self):
        ask_program_alone(self)


if __name__ == "__main__":
    unittest.main()
