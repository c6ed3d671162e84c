"""Small overlays and relations of floats by one call in a kept array: the answers of the longer way."""

import random
import unittest
from concurrent.futures import ThreadPoolExecutor
from unittest import mock

import polyover
from polyover import calls, relations
from polyover.library import library
from polyover.text import RELATIONS

from .features import square
from .test_quick import geometry, star, told
from .there import ask_program_alone, with_both, with_library

try:
    from shapely.geometry import Polygon
except ImportError:
    Polygon = None

SCALED = polyover.Scaled.of_digits(7)
RULES = ("subject", "clip", "intersect", "union", "difference", "inverse_difference", "xor")


def ring(points):
    """A polygon of GeoJSON."""
    return geometry("Polygon", [[list(point) for point in [*points, points[0]]]])


def longer(call):
    """What a call answers without the kept array."""
    with mock.patch.object(library(), "has_frames", False):
        return told(call)


@with_library
class Small(unittest.TestCase):
    """Beside calls without the array."""

    def test_by_hand(self):
        one, other = square(0, 0, 4, 4)[:-1], square(2.5, 2, 6, 6)[:-1]
        expected = [[[(2.5, 4), (2.5, 2), (4, 2), (4, 4)]]]
        fails = mock.patch.object(calls, "overlay", side_effect=AssertionError("the longer way"))
        with fails, mock.patch.object(relations, "relate_one", side_effect=AssertionError("the longer way")):
            for groups in (([one], [other]), (ring(one), ring(other)), (ring(one[::-1]), [other])):
                found = SCALED.overlay(*groups, "intersect")
                self.assertEqual((found, type(found), type(found[0])), (expected, polyover.Shapes, polyover.Paths))
                self.assertEqual((SCALED.intersects(*groups), SCALED.within(*groups)), (True, False))
            self.assertEqual(SCALED.overlay([one], ring(square(9, 9, 10, 10)[:-1]), "intersect"), [])
            self.assertEqual(SCALED.overlay([one]), [[[(0, 4), (0, 0), (4, 0), (4, 4)]]])

    def test_as_the_longer_way(self):
        chance = random.Random(12)
        for _ in range(60):
            places = [(chance.uniform(0, 2), chance.uniform(0, 2)) for _ in range(3)]
            rings = [star(x, y, chance.randint(2, 40), 2, chance.uniform(0.3, 1.9)) for x, y in places]
            rings[0] = rings[0][:: chance.choice((1, -1))]
            scaled = chance.choice((SCALED, polyover.Scaled(3, (0.1, 0)), polyover.Scaled(10**12)))
            for one, other in ((ring(rings[0]), ring(rings[1])), ([rings[0], rings[2]], ring(rings[1])), (rings, [])):
                rule, fill = chance.choice(RULES), chance.choice(("nonzero", "evenodd"))
                for call in (
                    lambda a, b, s=scaled, r=rule, f=fill: s.overlay(a, b, r, f),
                    lambda a, b, s=scaled, f=fill: s.relate(a, b, f),
                    lambda a, b, s=scaled, f=fill: [getattr(s, name)(a, b, f) for name in RELATIONS],
                ):
                    self.assertEqual(told(lambda c=call, a=one, b=other: c(a, b)),
                                     longer(lambda c=call, a=one, b=other: c(a, b)))

    @unittest.skipIf(Polygon is None, "no python3 here has shapely (Debian's python3-shapely)")
    def test_polygons_of_shapely(self):
        chance, hole = random.Random(14), [square(1, 1, 2, 2)]
        for _ in range(60):
            x, y = (chance.uniform(0, 2) for _ in range(2))
            rings = [(0, 0, 1), (1, 0, 2), (1, 1, 3)], [(0, 0), (4, 4), (4, 0), (0, 4)], [(0, 0), (0, y), (1, 1)], [
                (1e-9, 0), (0, 1e-9), (0, 0)], [(0, 0), (2, 2), (4, 0), (4, 4), (2, 2), (0, 4)]
            others = Polygon(square(0, 0, 4, 4), hole), Polygon(), *map(Polygon, rings)
            one = Polygon(star(x, y, chance.randint(2, 40), 2, chance.uniform(0.3, 1.9)))
            other = chance.choice((Polygon(star(y, x, chance.randint(2, 9))), chance.choice(others)))
            scaled = chance.choice((SCALED, polyover.Scaled(3, (0.1, 0)), polyover.Scaled(10**12), polyover.Scaled(1)))
            rule, fill = chance.choice(RULES), chance.choice(("nonzero", "evenodd"))
            for given in ((one, other), (other, one)):
                for call in (
                    lambda a, b, s=scaled, r=rule, f=fill: s.overlay(a, b, r, f),
                    lambda a, b, s=scaled, f=fill: s.relate(a, b, f),
                ):
                    self.assertEqual(told(lambda c=call, g=given: c(*g)), longer(lambda c=call, g=given: c(*g)))

    def test_what_is_not_taken(self):
        bow, thin, far = [(0, 0), (4, 4), (4, 0), (0, 4)], [(0, 0), (1e-9, 0), (0, 1e-9)], [(0, 0), (1e300, 0), (1, 1)]
        eight = [(0, 0), (2, 2), (4, 0), (4, 4), (2, 2), (0, 4)]
        for one in (ring(bow), ring(thin), ring(far), ring(eight), [far], [[(0, 0), (float("nan"), 1), (1, 1)]],
                    [[(0, 0), (True, 0), (1, 1)]], [[1, 2]], "ab", None, [["ab", "cd"]], [[(0, 0, 1), (1, 0, 1)]], 5):
            for other in (ring(square(0, 0, 3, 3)[:-1]), [], [[]]):
                for call in (SCALED.overlay, SCALED.relate, SCALED.touches):
                    given = one, other
                    self.assertEqual(told(lambda c=call, g=given: c(*g)), longer(lambda c=call, g=given: c(*g)))
        for words in (("nope",), ("union", "nope"), ([],), ("union", "positive"), ("union", "negative")):
            given = ring(bow), ring(thin), *words
            self.assertEqual(told(lambda g=given: SCALED.overlay(*g)), longer(lambda g=given: SCALED.overlay(*g)))

    def test_an_answer_without_room(self):
        teeth = [point for x in range(0, 400, 4) for point in ((x, 0), (x, 400), (x + 2, 400), (x + 2, 0))]
        upright = [*teeth, (400, -1), (0, -1)]
        level = [(y, x) for x, y in upright]
        found = SCALED.overlay([upright], [level], "intersect")
        self.assertEqual(found, longer(lambda: SCALED.overlay([upright], [level], "intersect"))[0])
        # (100 teeth by 100, apart but for the bars that join them)
        self.assertGreater(len(found), 99 * 99)

    def test_threads(self):
        rings = [star(0.1 * at, 0, 5) for at in range(40)]
        one = star(1, 0.3, 7)
        expected = [SCALED.overlay([each], [one], "xor") for each in rings]
        with ThreadPoolExecutor(8) as pool:
            for _ in range(20):
                self.assertEqual(list(pool.map(lambda each: SCALED.overlay([each], [one], "xor"), rings)), expected)

    @with_both
    def test_by_the_program(self):
        given = [square(0, 0, 4, 4)[:-1]], [square(2, 2, 6, 6)[:-1]]
        found = SCALED.overlay(*given, "intersect")
        ask_program_alone(self)
        self.assertEqual(SCALED.overlay(*given, "intersect"), found)


class Binary(unittest.TestCase):
    """Answers as well-known binary."""

    def test_by_hand(self):
        shapes = SCALED.overlay([[(0, 0), (1, 0), (1, 1)]])
        # (little-endian; of one polygon with one ring of four points)
        head = "0106000000010000000103000000010000000400000000"
        self.assertEqual(shapes.wkb.hex()[: len(head)], head)
        arrays = SCALED.overlay([[(0, 0), (1, 0), (1, 1)]], arrays=True)
        self.assertEqual(arrays.wkb, shapes.wkb)
        paths = SCALED.clip([square(0, 0, 4, 4)[:-1]], [[(-1, 2), (5, 2)]])
        self.assertEqual(polyover.Shapes([]).wkb.hex(), "010600000000000000")
        self.assertEqual(paths.wkb.hex(), "010500000001000000" "010200000002000000" + "0" * 16 + "0000000000000040"
                         + "0000000000001040" + "0000000000000040")

    def test_as_shapely_reads_it(self):
        try:
            from shapely import wkb
            from shapely.geometry import shape
        except ImportError:
            self.skipTest("no python3 here has shapely (Debian's python3-shapely)")
        found = SCALED.overlay([star(0, 0)], [star(0.4, 0.1)], "xor")
        self.assertTrue(wkb.loads(found.wkb).equals_exact(shape(found), 0))


if __name__ == "__main__":
    unittest.main()
