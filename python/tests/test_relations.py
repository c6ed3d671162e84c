"""Relations: of contours as they are given, and, with a solver or by the program, of an arrangement."""

import random
import unittest
import warnings
from unittest import mock

import polyover
from polyover import relations
from polyover.by_library import can
from polyover.library import library
from polyover.text import RELATIONS

from .features import collection, feature, ran
from .made_polygons import GRID, expected, made_pair
from .there import ask_library_alone, ask_program_alone, older_library, with_library, with_program

try:
    from shapely.geometry import Polygon
except ImportError:
    Polygon = None

# the clip's corner (2, 1) is inside the subject, and both have the corner (3, 2)
SUBJECT, CLIP = [(1, 2), (2, 0), (3, 2)], [(0, 0), (3, 2), (2, 1)]
# the second runs clockwise, so that positive filling fills nothing of it
SLIVER, TURNED = [(0, -1), (4, 5), (1, 2)], [(0, 0), (4, 5), (5, 6)]
# both meet in (1/3, 2/3) alone, where the lines y = 2x, y = 5x - 1, y = 1 - x and y = 2 - 4x cross
BOW, OTHER = [(0, 0), (1, 2), (1, 4), (0, -1)], [(0, 1), (1, 0), (1, -2), (0, 2)]
# they have the border from (0, 0) to (5, 2), above (3, 1) and below (2, 1)
BELOW, ABOVE, AROUND = [(0, 0), (3, 1), (5, 2)], [(0, 0), (5, 2), (2, 1)], [(0, 0), (5, 0), (5, 2)]
# they touch the first square in its corner, and along its side
SQUARE, CORNER = [(0, 0), (2, 0), (2, 2), (0, 2)], [(2, 2), (4, 2), (4, 4), (2, 4)]
BESIDE = [(2, 0), (4, 0), (4, 2), (2, 2)]
OVERLAP, MEET = ["intersects", "interiors_intersect"], ["intersects", "touches"]
BY_HAND = [
    (SUBJECT, CLIP, "nonzero", OVERLAP),
    (SLIVER, TURNED, "evenodd", OVERLAP),
    (SLIVER, TURNED, "positive", ["disjoint"]),
    (BOW, OTHER, "evenodd", [*MEET, "point_intersects"]),
    (BELOW, ABOVE, "nonzero", MEET),
    (BELOW, AROUND, "nonzero", [*OVERLAP, "within"]),
    (AROUND, BELOW, "positive", [*OVERLAP, "covers"]),
    (SUBJECT, SUBJECT[::-1], "nonzero", [*OVERLAP, "within", "covers"]),
    (SUBJECT, [], "nonzero", ["disjoint"]),
    (SQUARE, CORNER, "nonzero", [*MEET, "point_intersects"]),
    (SQUARE, BESIDE, "evenodd", MEET),
    (SQUARE, SQUARE, "positive", [*OVERLAP, "within", "covers"]),
]
FAR = 4611686018427387903
with_exact = unittest.skipUnless(can("relate_exact"), "no library for C that tells relations exactly (make -C c)")


def held(told):
    """The names of the relations that hold."""
    return [name for name, holds in told.items() if holds]


def made_layer(chance, side):
    """Rings of a layer: triangles and rectangles, which may overlap, or lie in one another."""
    rings = []
    for _ in range(chance.randint(1, 6)):
        (x, y), far = (chance.randint(0, side) for _ in range(2)), chance.choice((1, side // 3 + 1, side))
        u, v = chance.randint(1, far), chance.randint(1, far)
        corners = [(x, y), (x + u, y), (x + u, y + v), (x, y + v)]
        rings.append(chance.choice((corners, corners[:3], [(x, y), (x + u, y + v), (x - v, y + u)])))
    return [[list(point) for point in [*ring, ring[0]]] for ring in rings]


def polygon(contour):
    """A polygon of GeoJSON, of floats."""
    return {"type": "Polygon", "coordinates": [[[x / GRID, y / GRID] for x, y in [*contour, contour[0]]]]}


@with_exact
class AsGiven(unittest.TestCase):
    """What the library tells of contours as they are: nothing is rounded, or multiplied."""

    def setUp(self):
        ask_library_alone(self)
        fails = mock.patch.object(relations, "told_finest", side_effect=AssertionError("of an arrangement"))
        fails.start()
        self.addCleanup(fails.stop)

    def test_by_hand(self):
        for subject, clip, fill, names in BY_HAND:
            for owner in (polyover, polyover.Scaled(1), polyover.Scaled(10**9)):
                for options in ({}, {"solver": "exact"}):
                    given = [subject], [clip], fill
                    self.assertEqual(held(owner.relate(*given, **options)), names, given)
                    one_by_one = [name for name in RELATIONS if getattr(owner, name)(*given, **options)]
                    self.assertEqual(one_by_one, names, given)

    def test_one_relation_is_asked_alone(self):
        fails = mock.patch.object(relations.by_library, "exact_bits", side_effect=AssertionError("all relations"))
        with fails:
            for subject, clip, fill, names in BY_HAND:
                for owner in (polyover, polyover.Scaled(1)):
                    one_by_one = [name for name in RELATIONS if getattr(owner, name)([subject], [clip], fill)]
                    self.assertEqual(one_by_one, names)
            layer = collection(feature("Polygon", [[*SQUARE, SQUARE[0]]]))
            self.assertTrue(polyover.Scaled(1).covers(layer, layer) and not polyover.Scaled(1).touches(layer, layer))

    def test_a_library_without_the_call_is_asked_for_all(self):
        no_frames = mock.patch.object(library(), "has_frames", False)
        with older_library("polyover_relate_one_exact"), no_frames:
            for subject, clip, fill, names in BY_HAND:
                for owner in (polyover, polyover.Scaled(1)):
                    one_by_one = [name for name in RELATIONS if getattr(owner, name)([subject], [clip], fill)]
                    self.assertEqual(one_by_one, names)

    def test_at_the_ends_of_the_range(self):
        square = [(-FAR, -FAR), (FAR, -FAR), (FAR, FAR), (-FAR, FAR)]
        self.assertTrue(polyover.relate([SUBJECT], [square])["within"])
        self.assertTrue(polyover.relate([square], [square])["covers"])
        self.assertTrue(polyover.relate([[(0, 0)]], [])["disjoint"])
        with self.assertRaisesRegex(polyover.BadInput, "clip: contour 1, point 2: .* is out of range"):
            polyover.touches([square], [[(0, 0), (FAR + 1, 0), (0, 1)]])

    def test_geometries(self):
        scaled = polyover.Scaled(GRID)
        for subject, clip, fill, names in BY_HAND:
            if subject is BOW or not clip:
                continue
            # (a geometry means what it covers, whichever way its rings run)
            names = OVERLAP if names == ["disjoint"] else names
            one, other = polygon(subject), polygon(clip)
            for given in ((one, other), (feature("Polygon", one["coordinates"]), other)):
                self.assertEqual(held(scaled.relate(*given, fill)), names, given)
            self.assertEqual(held(ran("relate", one, other, words=["--digits", "12"])[1]), names)

    def test_polygons_that_overlap_are_not_joined(self):
        # (their edges cross at (1/2, 1), (3/2, 1) and (8/5, 4/5))
        both = {"type": "MultiPolygon", "coordinates": [[[[0, 0], [1, 2], [2, 0], [0, 0]]], [[[0, 1], [2, 1], [0, 0]]]]}
        for fill in ("nonzero", "evenodd", "negative"):
            for name in ("within", "covers"):
                self.assertTrue(getattr(polyover.Scaled(1), name)(both, both, fill))
            inner = {"type": "Polygon", "coordinates": [[[0, 0], [1, 0], [1, 2], [0, 0]]]}
            self.assertEqual(held(polyover.Scaled(1).relate(inner, both, fill)), [*OVERLAP, "within"])

    def test_layers_polygon_by_polygon(self):
        chance, scaled, told = random.Random(13), polyover.Scaled(1), set()
        for _ in range(400):
            side = chance.choice((3, 8, 400, 4000))
            layers = [made_layer(chance, side), made_layer(chance, side)]
            whole = [{"type": "MultiPolygon", "coordinates": [[ring] for ring in each]} for each in layers]
            apart = [collection(*(feature("Polygon", [ring]) for ring in each)) for each in layers]
            expected = scaled.relate(*whole)
            told.add(tuple(held(expected)))
            for given in (apart, (whole[0], apart[1]), (apart[0], whole[1])):
                self.assertEqual(scaled.relate(*given, "evenodd"), expected, layers)
            with mock.patch("polyover.relations_at_scale.MANY", 0):
                self.assertEqual(scaled.relate(*whole), expected, layers)
            self.assertEqual({name: getattr(scaled, name)(*apart) for name in RELATIONS}, expected, layers)
        self.assertGreater(len(told), 5)

    def test_words(self):
        for owner in (polyover, polyover.Scaled(1)):
            for call in (owner.relate, owner.intersects):
                with self.assertRaisesRegex(polyover.BadInput, "^unknown solver 'nope': one of exact, snapped"):
                    call([SUBJECT], [CLIP], solver="nope")
                with self.assertRaisesRegex(polyover.BadInput, "^unknown fill rule 'nope'"):
                    call([SUBJECT], [CLIP], "nope")
        with self.assertRaisesRegex(polyover.BadInput, "^unknown solver 'exact': one of snapped, rounds$"):
            polyover.overlay([SUBJECT], solver="exact")

    @unittest.skipIf(Polygon is None, "no python3 here has shapely (Debian's python3-shapely)")
    def test_made_floats_beside_shapely(self):
        chance, scaled = random.Random(8), polyover.Scaled(GRID)
        for _ in range(300):
            one, two = made_pair(chance, Polygon)
            for given in ((one, two), ([list(each.exterior.coords)[:-1]] for each in (one, two))):
                self.assertEqual(scaled.relate(*given), expected(one, two), (one.wkt, two.wkt))

    @unittest.skipIf(Polygon is None, "no python3 here has shapely (Debian's python3-shapely)")
    def test_tiny_coordinates(self):
        chance, count = random.Random(7), 0
        while count < 5000:
            size = chance.choice((4, 8, 20))
            one, two = ([(chance.randint(0, size), chance.randint(0, size)) for _ in range(3)] for _ in range(2))
            a, b = Polygon(one), Polygon(two)
            if a.is_valid and b.is_valid:
                count += 1
                self.assertEqual(polyover.relate([one], [two]), expected(a, b), (one, two))


class OfAnArrangement(unittest.TestCase):
    """What is told of the arrangement at the finest scale that the range allows."""

    def test_corners_of_one_inside_the_other(self):
        self.assertEqual(polyover.locate([SUBJECT], [(2, 1)]), ["inside"])
        for owner in (polyover, polyover.Scaled(1)):
            for solver in ("snapped", "rounds"):
                self.assertEqual(held(owner.relate([SUBJECT], [CLIP], solver=solver)), OVERLAP)

    def test_at_the_ends_of_the_range(self):
        square = [(-FAR, -FAR), (FAR, -FAR), (FAR, FAR), (-FAR, FAR)]
        self.assertTrue(polyover.relate([SUBJECT], [square], solver="snapped")["within"])
        self.assertTrue(polyover.covers([square], [square], solver="snapped"))

    def test_coarser_where_rounds_do_not_settle(self):
        asked = []

        def refusing(subject, clip, fill, _):
            asked.append(max(x for path in subject for x, _ in path))
            if len(asked) < 3:
                raise polyover.NotSettled("no")
            return {"disjoint": True}

        with mock.patch.object(relations, "relations_as_given", refusing), warnings.catch_warnings(record=True) as told:
            warnings.simplefilter("always")
            found = polyover.relate([[(1, 0), (0, 1), (0, 0)]], [], solver="rounds")
        self.assertEqual(found, {"disjoint": True})
        self.assertEqual(asked, [2**61, 2**53, 2**45])
        self.assertIn("times 2^45, since splitting did not settle at 2^61", str(told[0].message))

    def told(self, call):
        """What a call tells, which warns once unless a solver is named."""
        with warnings.catch_warnings():
            warnings.simplefilter("error")
            call([SUBJECT], [CLIP], solver="rounds")
        with self.assertWarnsRegex(polyover.PolyoverWarning, "those of an arrangement: no library") as told:
            found = call([SUBJECT], [CLIP])
        self.assertEqual(len(told.warnings), 1)
        return held(found) if isinstance(found, dict) else found

    @with_program
    def test_by_the_program(self):
        ask_program_alone(self)
        for owner in (polyover, polyover.Scaled(1)):
            self.assertEqual(self.told(owner.relate), OVERLAP)
            self.assertTrue(self.told(owner.intersects))
            for call in (owner.relate, owner.within):
                with self.assertRaisesRegex(polyover.LibraryMissing, "no library that tells relations of contours as"):
                    call([SUBJECT], [CLIP], solver="exact")

    @with_library
    def test_by_an_older_library(self):
        ask_library_alone(self)
        with mock.patch.object(relations.by_library, "TAKES", {**relations.by_library.TAKES, "relate_exact": "no"}):
            self.assertEqual(self.told(polyover.relate), OVERLAP)
            self.assertTrue(self.told(polyover.intersects))
            with self.assertRaisesRegex(polyover.LibraryMissing, "no library that tells"):
                polyover.touches([SUBJECT], [CLIP], solver="exact")


if __name__ == "__main__":
    unittest.main()
