"""Many small questions by one call: each has the answer that it has alone."""

import random
import unittest
from unittest import mock

import polyover
from polyover import calls, together
from polyover.contour import row_of
from polyover.progress import faults_of
from polyover.together import Asked

from .features import collection, feature, ran, square
from .there import with_library


def in_rows(answer):
    """Paths, or shapes, with the coordinates of each in a row."""
    return together.rows_in(answer)


def rowed(pairs):
    """Pairs of groups of paths, with the coordinates of each path in a row."""
    return [tuple(list(map(row_of, paths)) for paths in pair) for pair in pairs]


def boxes(chance, count):
    """Contours round rectangles, all of whose edges meet in whole points."""
    found = []
    for _ in range(count):
        x, y = chance.randint(-50, 50), chance.randint(-50, 50)
        wide, high = chance.randint(1, 40), chance.randint(1, 40)
        found.append([(x, y), (x + wide, y), (x + wide, y + high), (x, y + high)][:: chance.choice((1, -1))])
    return found


def lines(chance, count):
    """Open paths of level and upright steps."""
    found = []
    for _ in range(count):
        points = [(chance.randint(-60, 60), chance.randint(-60, 60))]
        for at in range(chance.randint(1, 5)):
            x, y = points[-1]
            points.append((chance.randint(-60, 60), y) if at % 2 else (x, chance.randint(-60, 60)))
        found.append(points)
    return found


class Same(unittest.TestCase):
    """Beside calls of one pair each."""

    def test_by_hand(self):
        pairs = [([square(0, 0, 4, 4)[:-1]], [square(2, 2, 6, 6)[:-1]]), ([], []), ([square(0, 0, 1, 1)[:-1]], [])]
        found = together.overlays(rowed(pairs), "intersect", "nonzero")
        self.assertEqual(found, [[[[2, 4, 2, 2, 4, 2, 4, 4]]], [], []])
        pairs = [([square(0, 0, 4, 4)[:-1]], [[(-1, 2), (5, 2)]]), ([square(9, 9, 10, 10)[:-1]], [[(0, 0), (1, 0)]])]
        self.assertEqual(together.clips(rowed(pairs), "nonzero"), [[[0, 2, 4, 2]], []])
        found = together.clips(rowed(pairs), "nonzero", invert=True)
        self.assertEqual(found, [[[-1, 2, 0, 2], [4, 2, 5, 2]], [[0, 0, 1, 0]]])

    def test_of_whole_meeting_points(self):
        chance = random.Random(8)
        for _ in range(30):
            pairs = [(boxes(chance, chance.randint(0, 4)), boxes(chance, chance.randint(0, 4))) for _ in range(20)]
            clipped = [(shape, lines(chance, chance.randint(0, 3))) for shape, _ in pairs]
            far = 2**50 * chance.randint(-9, 9)
            clipped = [([[(x + far, y) for x, y in path] for path in shape],
                        [[(x + far, y) for x, y in path] for path in paths]) for shape, paths in clipped]
            fill, solver = chance.choice(("nonzero", "evenodd", "positive")), chance.choice(("snapped", "rounds"))
            for rule in ("intersect", "difference", "xor"):
                for ogc in (True, False):
                    look = {"ogc": ogc, "solver": solver, "minimum_area": chance.choice((0, 20))}
                    alone = [in_rows(calls.overlay(*pair, rule, fill, **look)) for pair in pairs]
                    self.assertEqual(together.overlays(rowed(pairs), rule, fill, **look), alone)
            for invert in (True, False):
                options = {"invert": invert, "boundary": chance.choice((True, False)), "solver": solver}
                alone = [in_rows(calls.clip(*pair, fill, **options)) for pair in clipped]
                self.assertEqual(together.clips(rowed(clipped), fill, **options), alone)

    def test_of_one_slanted_pair_each(self):
        # (all have meeting points that are not whole, so each alone is snapped as all are)
        chance = random.Random(9)
        slanted = [(0, 0), (1000, 333), (10, 991)]
        pairs = []
        for _ in range(50):
            x, y = chance.randint(-10**9, 10**9), chance.randint(-10**9, 10**9)
            pairs.append(([[(x + u, y + v) for u, v in slanted]], [[(x + 7 * v, y + u) for u, v in slanted]]))
        for rule in ("intersect", "union", "xor"):
            alone = [in_rows(calls.overlay(*pair, rule, "nonzero")) for pair in pairs]
            self.assertEqual(together.overlays(rowed(pairs), rule, "nonzero"), alone)


class Refused(unittest.TestCase):
    """Where all at once is not answered."""

    def answers(self, asked, one, all_at_once=lambda _: None):
        """What is answered of pairs."""
        return list(together.answers(asked, "a.geojson", all_at_once, one))

    def test_one_by_one(self):
        pairs = [Asked(f"feature {at}", [[0, 0, at, 0, 0, at]], []) for at in (1, 2, 3)]
        self.assertEqual(self.answers(pairs, lambda pair: pair[0]), [[[0, 0, at, 0, 0, at]] for at in (1, 2, 3)])

        def refuse(pair):
            if pair[0][0][1] == (2, 0):
                raise polyover.OutOfMemory("no memory")
            return []

        with self.assertRaisesRegex(polyover.OutOfMemory, "^a.geojson: feature 2: no memory$"):
            self.answers(pairs, refuse)

    def test_parts_have_few_points(self):
        pairs = [Asked(at, [[0, 0] * 20], [[1, 1] * 5]) for at in range(10)]
        with mock.patch.object(together, "POINTS", 60):
            self.assertEqual([len(part) for part in together.parts_of(pairs)], [2] * 5)
        with mock.patch.object(together, "POINTS", 3):
            self.assertEqual([len(part) for part in together.parts_of(pairs)], [1] * 10)

    def test_no_room(self):
        wide = [[(-(2**61), 0), (2**61, 0), (0, 9)]]
        ((ring,),) = together.overlays(rowed([(wide, [])]), "subject", "nonzero")[0]
        self.assertEqual(set(zip(ring[0::2], ring[1::2])), set(wide[0]))
        self.assertIsNone(together.overlays(rowed([(wide, [])] * 3), "subject", "nonzero"))
        self.assertIsNone(together.clips(rowed([(wide, [])] * 3), "nonzero"))

    @with_library
    def test_refused_by_rounds(self):
        # (a refusal of all asks each by itself, and names the one)
        for fault in (polyover.NotSettled("x"), polyover.OutOfMemory("x"), MemoryError()):
            with mock.patch.object(calls, "overlay", side_effect=fault):
                self.assertIsNone(together.overlays([([[0, 0, 1, 0, 0, 1]], [])], "union", "nonzero"))
        with self.assertRaises(polyover.BadInput), faults_of("a"):
            together.overlays([([[0, 0, 1, 0, 0, 1]], [])], "nope", "nonzero")


class Commands(unittest.TestCase):
    """Features of a file are asked some at a time."""

    def test_more_than_are_asked_at_once(self):
        count = 1203
        land = collection(*(feature("Polygon", [square(3 * x, 0, 3 * x + 2, 2)]) for x in range(count)))
        lakes = collection(*(feature("Polygon", [square(3 * x + 1, 1, 3 * x + 3, 3)], at=x) for x in range(count)))
        for words in (["--keep", "--rule", "intersect"], ["--keep", "both", "--rule", "intersect"]):
            status, found, _, _ = ran("overlay", lakes, land, words=words)
            self.assertEqual((status, len(found["features"])), (0, count))
            for x, each in enumerate(found["features"]):
                ((ring,),) = each["geometry"]["coordinates"]
                self.assertEqual(each["properties"], {"at": x})
                self.assertEqual(sorted(map(tuple, ring[:-1])), [(3 * x + 1, 1), (3 * x + 1, 2), (3 * x + 2, 1),
                                                                 (3 * x + 2, 2)])


if __name__ == "__main__":
    unittest.main()
