"""Rings and lines of longitudes and latitudes that pass the antimeridian: they are told, or cut there."""

import json
import unittest

from polyover.antimeridian import unrolled
from polyover.writing import ROUNDED

from .features import collection, feature, in_folder, ran, square, told

# 20 by 20 degrees round the antimeridian, both ways, with a hole of 4 by 4
FIJI = [[170, -10], [-170, -10], [-170, 10], [170, 10], [170, -10]]
BEYOND = square(170, -10, 190, 10)
HOLE = [[178, -2], [-178, -2], [-178, 2], [178, 2], [178, -2]]
ANTARCTICA = [[-180, -90], [-180, -80], [0, -70], [180, -80], [180, -90], [-180, -90]]
WORLD = collection(feature("Polygon", [square(-180, -90, 180, 90)]))


def area(ring):
    """The area of a ring, counterclockwise ones above 0."""
    return sum(a[0] * b[1] - b[0] * a[1] for a, b in zip(ring, ring[1:])) / 2


def boxes(left):
    """The box of each outline of an answer, and the area of its polygon."""
    polygons = [rings for each in left["features"] for rings in each["geometry"]["coordinates"]]
    return sorted(
        (min(x for x, _ in rings[0]), min(y for _, y in rings[0]), max(x for x, _ in rings[0]),
         max(y for _, y in rings[0]), sum(map(area, rings)))
        for rings in polygons
    )


class Told(unittest.TestCase):
    """What is said of wide rings."""

    SAID = (" more than 180 degrees, and coordinates are planar: --antimeridian cut cuts at 180 (the first:"
            " feature 2, polygon 1, ring {})\n")

    def test_once_a_file(self):
        area = collection(feature("Polygon", [square(0, 0, 1, 1)]), feature("Polygon", [FIJI, HOLE]),
                          feature("Polygon", [FIJI]))
        status, _, said, _ = ran("simplify", area)
        self.assertEqual((status, said), (0, "polyover: a.geojson: 3 rings span" + self.SAID.format(1)))
        self.assertEqual(ran("simplify", area, words=["--quiet"])[2], "")
        wide = square(-90, 0, 90, 1), square(-90, 0, 91, 1)
        area = collection(*(feature("Polygon", [ring]) for ring in wide))
        self.assertEqual(ran("simplify", area)[2], "polyover: a.geojson: 1 ring spans" + self.SAID.format(1))

    def test_lines(self):
        line = feature("LineString", [[170, 0], [-170, 0]])
        said = ran("clip", collection(feature("Polygon", [square(0, 0, 1, 1)])), collection(line))[2]
        self.assertIn("b.geojson: 1 line spans more than 180 degrees", said)

    def test_relations_are_told_of_what_is_cut(self):
        area = collection(feature("Polygon", [FIJI]))
        for words in ((), ("--solver", "exact"), ("--solver", "rounds")):
            inner = collection(feature("Polygon", [square(175, -1, 179, 1)]))
            _, found, said, _ = ran("relate", area, inner, words=["--antimeridian", "cut", *words])
            self.assertEqual((found["covers"], found["within"], found["disjoint"], said), (True, False, False, ""))

    def test_other_systems(self):
        for code, is_told in (("urn:ogc:def:crs:EPSG::3857", False), ("EPSG:4326", True), ("EPSG:32633", False),
                              ("urn:ogc:def:crs:OGC:1.3:CRS84", True)):
            crs = {"type": "name", "properties": {"name": code}}
            said = ran("simplify", collection(feature("Polygon", [FIJI]), crs=crs))[2]
            self.assertEqual("spans more than 180" in said, is_told, code)
        self.assertEqual(ran("simplify", collection(feature("Polygon", [FIJI]), crs=None))[2], "")
        # (these are no degrees)
        self.assertEqual(ran("simplify", collection(feature("Polygon", [square(0, 0, 5000, 5000)])))[2], "")

    def test_other_formats(self):
        folder = in_folder(self)
        text = folder / "a.wkt"
        for start, is_told in (("", False), ("SRID=3857;", False), ("SRID=4326;", True)):
            text.write_text(f"{start}POLYGON ((170 0, -170 0, -170 10, 170 0))\n")
            said = told("simplify", text, "--out", folder / "b.wkt")[1]
            self.assertEqual("a.wkt: 1 ring spans" in said and "(the first: line 1, polygon 1" in said, is_told)
        lines = folder / "a.geojsonl"
        lines.write_text(f"\n{json.dumps(feature('Polygon', [FIJI]))}\n")
        said = told("simplify", lines, "--out", folder / "b.geojsonl")[1]
        self.assertIn("a.geojsonl: 1 ring spans more than 180 degrees", said)
        self.assertIn("(the first: line 2, polygon 1, ring 1)", said)


class Cut(unittest.TestCase):
    """What --antimeridian cut does."""

    def cut(self, *rings, command="simplify", others=(), kind="Polygon", words=(), says=""):
        """What a command leaves of a polygon that is cut, which says no more than what it is to tell."""
        given = collection(feature(kind, list(rings)))
        status, left, said, _ = ran(command, given, *others, words=["--antimeridian", "cut", *words])
        self.assertEqual((status, said), (0, says))
        return left

    def test_short_ways(self):
        self.assertEqual(unrolled(FIJI[:-1]), ([(170, -10), (190, -10), (190, 10), (170, 10)], 0))
        self.assertEqual(unrolled([[-170, 0], [170, 0], [-170, 5]])[0], [(-170, 0), (-190, 0), (-170, 5)])
        # (there and back, and round a pole)
        self.assertEqual(unrolled([[-120, 60], [0, 60], [120, 60]])[1], 360)
        self.assertEqual(unrolled([[-180, 0], [180, 0], [0, 5]])[0], [(-180, 0), (180, 0), (0, 5)])

    def test_in_parts(self):
        halves = [(-180, -10, -170, 10, 200), (170, -10, 180, 10, 200)]
        for ring in (FIJI, FIJI[::-1], BEYOND, [[x - 360, y] for x, y in BEYOND], [*FIJI[2:-1], *FIJI[:3]]):
            self.assertEqual(boxes(self.cut(ring)), halves)
        with_hole = [(-180, -10, -170, 10, 192), (170, -10, 180, 10, 192)]
        for hole in (HOLE, HOLE[::-1], square(178, -2, 182, 2), square(-182, -2, -178, 2)):
            self.assertEqual(boxes(self.cut(FIJI, hole)), with_hole)
            self.assertEqual(boxes(self.cut(BEYOND, hole)), with_hole)

    def test_a_slant_is_rounded_at_the_scale(self):
        # from (170, 0) to (-160, 10) by 30 degrees: at 180 the edge is at 10 / 3, rounded to 3.33
        left = self.cut([[170, 0], [-160, 10], [-160, 0], [170, 0]], words=["--digits", "2"])
        points = {tuple(point) for each in left["features"] for rings in each["geometry"]["coordinates"]
                  for ring in rings for point in ring}
        self.assertEqual(points, {(170, 0), (180, 0), (180, 3.33), (-180, 3.33), (-180, 0), (-160, 0), (-160, 10)})

    def test_at_other_scales(self):
        for digits, says in (("-1", ""), ("0", ""), ("16", f"polyover: {ROUNDED}\n")):
            (_, _, _, _, one), (_, _, _, _, other) = boxes(self.cut(FIJI, words=["--digits", digits], says=says))
            self.assertEqual((round(one), round(other)), (200, 200), digits)
        words = ["--antimeridian", "cut", "--digits", "-2"]
        said = ran("simplify", collection(feature("Polygon", [FIJI])), words=words)[2]
        self.assertIn("--antimeridian cut takes --digits at which 180 degrees are a whole number", said)

    def test_planar_rings_stay(self):
        wide = [[-170, 0], [0, 0], [170, 0], [170, 10], [0, 10], [-170, 10], [-170, 0]]
        for ring in (ANTARCTICA, wide, square(-180, -90, 180, 90)):
            (found,) = boxes(self.cut(ring))
            self.assertEqual(found[4], abs(area(ring)))

    def test_before_each_command(self):
        zone = collection(feature("Polygon", [square(-180, 0, -175, 90)]))
        words = ["--rule", "intersect"]
        left = self.cut(FIJI, command="overlay", others=[zone], words=words)
        self.assertEqual(boxes(left), [(-180, 0, -175, 10, 50)])
        self.assertEqual(boxes(self.cut(FIJI, command="overlay", others=[zone], words=[*words, "--keep"])),
                         [(-180, 0, -175, 10, 50)])
        points = collection(feature("Point", [179, 0]), feature("Point", [0, 0]), feature("Point", [-170, 0]))
        left = self.cut(FIJI, command="locate", others=[points])
        self.assertEqual([each["properties"]["location"] for each in left["features"]],
                         ["inside", "outside", "boundary"])

    def test_lines(self):
        roads = collection(feature("LineString", [[175, 0], [-175, 10]]), feature("LineString", [[0, 0], [1, 1]]))
        status, left, said, _ = ran("clip", WORLD, roads, words=["--antimeridian", "cut"])
        self.assertEqual((status, said), (0, ""))
        parts = [sorted(each["geometry"]["coordinates"]) for each in left["features"]]
        self.assertEqual(parts, [[[[-180, 5], [-175, 10]], [[175, 0], [180, 5]]], [[[0, 0], [1, 1]]]])

    def test_faults(self):
        pole = [[-120, 60], [0, 60], [120, 60], [-120, 60]]
        crs = {"type": "name", "properties": {"name": "EPSG:3857"}}
        fiji, round_pole = feature("Polygon", [FIJI]), feature("Polygon", [pole])
        for given, words, fault in (
            (collection(round_pole), (), "a.geojson: feature 1, polygon 1, ring 1: it winds round a pole"),
            (collection(fiji), ("--fill", "nonzero"), "--antimeridian cut does not go with --fill"),
            (collection(fiji, crs=crs), (), "a.geojson: its system of coordinates is EPSG:3857"),
            (collection(feature("Polygon", [square(0, 0, 5000, 1)])), (),
             "a.geojson: feature 1, polygon 1: (5000, 0) is no longitude and latitude"),
        ):
            status, left, said, _ = ran("simplify", given, words=["--antimeridian", "cut", *words])
            self.assertEqual((status, left), (1, None))
            self.assertIn(f"polyover: {fault}", said)


if __name__ == "__main__":
    unittest.main()
