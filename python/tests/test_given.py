"""Answers at points far from all contours: they wind there as the contours that were given tell, by fractions."""

import random
import unittest
from fractions import Fraction

import polyover

from .splitting import moving_rounds
from .there import ask_library_alone, with_library

LISTS, POINTS = 1000, 12
FILLS = {
    "evenodd": lambda w: w % 2 == 1,
    "nonzero": lambda w: w != 0,
    "positive": lambda w: w > 0,
    "negative": lambda w: w < 0,
}
RULES = {
    "union": lambda s, c: s or c,
    "intersect": lambda s, c: s and c,
    "difference": lambda s, c: s and not c,
    "xor": lambda s, c: s != c,
}


def steps_of(contours):
    """The steps of closed contours."""
    return [step for each in contours for step in zip(each, each[1:] + each[:1])]


def winding(contours, p):
    """How often contours wind round p: the signs of the steps that a ray straight down crosses."""
    total = 0
    for q, r in steps_of(contours):
        (a, b), sign = ((q, r), 1) if q < r else ((r, q), -1)
        if a[0] <= p[0] < b[0]:
            total += sign * ((b[0] - a[0]) * (p[1] - a[1]) > (b[1] - a[1]) * (p[0] - a[0]))
    return total


def is_near(step, p, reach):
    """Whether some point of a step is at most `reach` away from p in x and in y."""
    if any(min(q, r) > at + reach or max(q, r) < at - reach for q, r, at in zip(*step, p)):
        return False
    low, high = Fraction(0), Fraction(1)
    for q, r, at in zip(*step, p):
        if q == r:
            continue
        first, last = sorted((Fraction(at - reach - q, r - q), Fraction(at + reach - q, r - q)))
        low, high = max(low, first), min(high, last)
    return low <= high


def made_contours(chance, size):
    """Some contours of a few points, which may cross themselves."""
    return [[(chance.randint(-size, size), chance.randint(-size, size)) for _ in range(chance.randint(3, 6))]
            for _ in range(chance.randint(1, 2))]


def made_point(chance, contours, size, reach):
    """A point anywhere, or just far enough from a corner of a contour."""
    if chance.random() < 0.5:
        return tuple(Fraction(chance.randint(-8 * size, 8 * size), 8) for _ in range(2))
    x, y = chance.choice(chance.choice(contours))
    beyond = reach + Fraction(1, 64)
    dx, dy = chance.choice([-1, 1]) * beyond, Fraction(chance.randint(-64, 64), 64) * beyond
    return (x + dx, y + dy) if chance.random() < 0.5 else (x + dy, y + dx)


@with_library
class Far(unittest.TestCase):
    """The second sentence of the guarantee."""

    def setUp(self):
        ask_library_alone(self)

    def winds_as_given(self, chance, solver):
        """Tests windings of one answer at points far from the contours. Returns how many were tried."""
        size = chance.choice([4, 8, 16, 40])
        subject, clip = made_contours(chance, size), made_contours(chance, size)
        halves = 1 if solver == "snapped" else moving_rounds(subject, clip)
        if halves is None:
            return 0
        rule, fill = chance.choice([*RULES]), chance.choice([*FILLS])
        shapes = polyover.overlay(subject, clip, rule, fill, solver=solver, ogc=chance.random() < 0.5)
        answer, reach, tried = [each for shape in shapes for each in shape], Fraction(halves, 2), 0
        for _ in range(POINTS):
            p = made_point(chance, subject + clip, size, reach)
            if any(is_near(step, p, reach) for step in steps_of(subject + clip)):
                continue
            tried += 1
            filled = [FILLS[fill](winding(contours, p)) for contours in (subject, clip)]
            self.assertEqual(winding(answer, p), int(RULES[rule](*filled)), (subject, clip, rule, fill, p))
        return tried

    def test_snapped(self):
        chance = random.Random(78)
        self.assertGreater(sum(self.winds_as_given(chance, "snapped") for _ in range(LISTS)), LISTS)

    def test_by_rounds(self):
        chance = random.Random(79)
        self.assertGreater(sum(self.winds_as_given(chance, "rounds") for _ in range(LISTS)), LISTS)


if __name__ == "__main__":
    unittest.main()
