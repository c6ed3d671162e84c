"""Shapes and arrangements in memory of the library can't be pickled, which is said by name."""

import copy
import pickle
import unittest

import polyover

from .rows import OTHER, SQUARE
from .there import with_library

INSIDE = ["inside", "boundary", "outside"]
POINTS = [(1, 1), (4, 1), (9, 9)]


@with_library
class Kept(unittest.TestCase):
    """Prepared shapes and arrangements, of whole numbers and of floats."""

    def test_pickled(self):
        scaled = polyover.Scaled(10)
        for name, one in (
            ("Prepared", polyover.Prepared([SQUARE])),
            ("Prepared", polyover.Prepared([SQUARE], solver="rounds")),
            ("Prepared", scaled.prepared([SQUARE])),
            ("Arrangement", polyover.Arrangement([SQUARE], [OTHER])),
            ("Arrangement", scaled.arrangement([SQUARE], [OTHER])),
        ):
            told = f"^{name} is in memory of the library, and can't be pickled or copied deeply: keep its contours"
            for call in (pickle.dumps, copy.deepcopy, lambda it: pickle.dumps({"kept": [it]})):
                with self.assertRaisesRegex(TypeError, told):
                    call(one)

    def test_copied(self):
        one = polyover.Prepared([SQUARE])
        other = copy.copy(one)
        one.close()
        self.assertEqual(other.locate(POINTS), INSIDE)
        both = polyover.Arrangement([SQUARE], [OTHER])
        more = copy.copy(both)
        both.close()
        self.assertEqual(more.overlay("intersect"), [[[(2, 4), (2, 2), (4, 2), (4, 4)]]])

    def test_scales_and_arrays(self):
        scaled = pickle.loads(pickle.dumps(polyover.Scaled(10, (1, 2))))
        self.assertEqual(scaled, polyover.Scaled(10, (1, 2)))
        found = scaled.overlay([SQUARE], [OTHER], "intersect", arrays=True)
        for each in (copy.deepcopy(found), pickle.loads(pickle.dumps(found)), copy.copy(found)):
            self.assertEqual(list(each), [[[(2.0, 4.0), (2.0, 2.0), (4.0, 2.0), (4.0, 4.0)]]])


if __name__ == "__main__":
    unittest.main()
