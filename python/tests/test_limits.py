"""The limit of weights, as the library tells it: edges that weigh 2^31 are refused by each call, and not just below."""

import unittest

import polyover
from polyover.text import SOLVERS

from .there import ask_library_alone, with_library

# 2 * (COPIES + 2)^2 is 2^31.
COPIES = 32766


def copies(beside):
    """`COPIES` copies of a rectangle, and a contour of `beside` edges."""
    rectangle = [(100, 2), (100 + COPIES + 1, 2), (100 + COPIES + 1, 3), (100, 3)]
    return [rectangle] * COPIES + [[(at, at * at) for at in range(beside)]]


def steps():
    """A way whose upright steps cross the long sides of the rectangle in whole points."""
    upright = []
    for at in range(1, COPIES + 1):
        ends = [(100 + at, 0 if at in (1, COPIES) else 1), (100 + at, 4)]
        upright += ends if at % 2 else reversed(ends)
    return upright


@with_library
class Limits(unittest.TestCase):
    """Once cut, the rectangles weigh 2 * COPIES * (COPIES + 1) + 2 * COPIES, the upright steps 3 * COPIES, and what
    joins them COPIES, or one less where it is not closed: with 8 edges, or 9, it is 2^31 just."""

    def setUp(self):
        ask_library_alone(self)
        self.steps = [steps()]

    def calls(self, beside):
        """Each call, with `beside` edges beside the rectangles, or one more where the steps are not closed."""
        closed, opened = copies(beside), copies(beside + 1)
        return {
            "overlay": (closed, self.steps),
            "hierarchy": (closed, self.steps),
            "simplify": (closed + self.steps,),
            "edges": (closed, self.steps),
            "relate": (closed, self.steps),
            "slice": (opened, self.steps),
            "clip": (opened, self.steps),
        }

    def test_at_the_limit(self):
        for name, given in self.calls(8).items():
            for solver in SOLVERS:
                with self.subTest(name, solver=solver), self.assertRaises(polyover.TooManyEdges):
                    getattr(polyover, name)(*given, solver=solver)

    def test_below_the_limit(self):
        for name, given in self.calls(7).items():
            for solver in SOLVERS:
                with self.subTest(name, solver=solver):
                    self.assertTrue(getattr(polyover, name)(*given, solver=solver))


if __name__ == "__main__":
    unittest.main()
