"""Geometries as WKT and WKB: by hand, and as shapely reads and writes them."""

import json
import unittest

from polyover import BadInput, Scaled, wkb, wkt
from polyover.writing import ROUNDED

from .features import collection, feature, in_folder, square, told

try:
    from shapely import geometry as shapes
    from shapely import wkb as wkb_of_shapely
    from shapely import wkt as wkt_of_shapely
except ImportError:
    shapes = None

SQUARE = [[0.0, 0.0], [2.0, 0.0], [2.0, 2.5], [0.0, 0.0]]
HOLE = [[0.5, 0.5], [1.0, 0.5], [1.0, 1.0], [0.5, 0.5]]
# each text, and what it is as GeoJSON
TEXTS = {
    "POINT (1 -2.5)": ("Point", [1, -2.5]),
    "point(1e3 .5)": ("Point", [1000, 0.5]),
    "POINT Z (1 2 3)": ("Point", [1, 2, 3]),
    "POINTZ (1 2 3)": ("Point", [1, 2, 3]),
    "POINT (1 2 3)": ("Point", [1, 2, 3]),
    "POINT EMPTY": ("Point", []),
    "LINESTRING (0 0, 1 1)": ("LineString", [[0, 0], [1, 1]]),
    "MULTIPOINT (0 0, 1 1)": ("MultiPoint", [[0, 0], [1, 1]]),
    "MULTIPOINT ((0 0), (1 1))": ("MultiPoint", [[0, 0], [1, 1]]),
    "POLYGON ((0 0, 2 0, 2 2.5, 0 0), (0.5 0.5, 1 0.5, 1 1, 0.5 0.5))": ("Polygon", [SQUARE, HOLE]),
    "POLYGON EMPTY": ("Polygon", []),
    "MULTILINESTRING ((0 0, 1 1), EMPTY)": ("MultiLineString", [[[0, 0], [1, 1]], []]),
    "MULTIPOLYGON (((0 0,2 0,2 2.5,0 0)))": ("MultiPolygon", [[SQUARE]]),
}
FAULTS = (
    ("POLYGON ((0 0, 1 0", "no WKT: the end in the place of )"),
    ("POLYGON (0 0, 1 0)", "no WKT: 0 in the place of ("),
    ("POINT (1)", "no WKT: 1 numbers: a point has x and y"),
    ("POINT (1 2 3 4)", "no WKT: 4 numbers"),
    ("POINT (nan 1)", "no WKT: NAN in the place of a number"),
    ("POINT M (1 2 3)", "no WKT: M in the place of ("),
    ("CIRCULARSTRING (0 0, 1 1, 2 0)", "no WKT: CIRCULARSTRING in the place of POINT"),
    ("POINT (1 2) x", "no WKT: X behind the geometry"),
    ("POINT (1 2), 3", "no WKT: , behind the geometry"),
    ("POINT (1 # 2)", "no WKT: '# 2)'"),
    ("POINT (1-2)", "no WKT: '1-2)'"),
    ("POINT (0.5.25 1)", "no WKT: '0.5.25 1)'"),
    (f"POINT (1 {'9' * 5000})", "no WKT: a whole number of 5000 signs is too long"),
    ("GEOMETRYCOLLECTION (" * 60, "more than 50 collections in one another"),
    ("", "no WKT: the end in the place of POINT"),
)
TRIANGLE = "POLYGON ((0 0, 4 0, 4 4, 0 0))"


class Texts(unittest.TestCase):
    """WKT."""

    def test_by_hand(self):
        for text, (kind, coordinates) in TEXTS.items():
            self.assertEqual(wkt.geometry_in(text), (0, {"type": kind, "coordinates": coordinates}), text)
        both = {"type": "GeometryCollection", "geometries": [{"type": "Point", "coordinates": [1, 2]},
                                                             {"type": "GeometryCollection", "geometries": []}]}
        self.assertEqual(wkt.geometry_in(" GEOMETRYCOLLECTION(POINT(1 2),GEOMETRYCOLLECTION EMPTY)\n"), (0, both))
        self.assertEqual(wkt.geometry_in("SRID=3857;POINT (1 2)")[0], 3857)

    def test_faults(self):
        for text, fault in FAULTS:
            with self.subTest(text), self.assertRaises(BadInput) as caught:
                wkt.geometry_in(text)
            self.assertIn(fault, str(caught.exception))

    def test_written(self):
        for text in ("POINT (1 -2.5)", "POINT Z (1 2 3)", "MULTIPOINT ((0 0), (1 1))", "POLYGON EMPTY",
                     "MULTIPOLYGON (((0 0, 2 0, 2 2.5, 0 0), (0.5 0.5, 1 0.5, 1 1, 0.5 0.5)))",
                     "MULTILINESTRING ((0 0, 1e+22 1e-07))"):
            self.assertEqual(wkt.written(wkt.geometry_in(text)[1]), f"{text}\n")
        self.assertEqual(wkt.written(wkt.geometry_in(TRIANGLE)[1], 3857), f"SRID=3857;{TRIANGLE}\n")
        with self.assertRaises(BadInput):
            wkt.written({"type": "MultiPoint", "coordinates": [[1, 2], [1, 2, 3]]})

    @unittest.skipIf(shapes is None, "no python3 here has shapely (Debian's python3-shapely)")
    def test_as_shapely(self):
        for text, (kind, coordinates) in TEXTS.items():
            if "EMPTY" not in text and "POINTZ" not in text:
                other = wkt_of_shapely.loads(text)
                found = shapes.shape({"type": kind, "coordinates": coordinates})
                self.assertTrue(found.equals(other) and found.has_z == other.has_z, text)
                written = wkt.written({"type": kind, "coordinates": coordinates})
                self.assertEqual(wkt_of_shapely.loads(written).wkb, other.wkb)


class Bytes(unittest.TestCase):
    """WKB."""

    POINT = "0101000000000000000000F03F00000000000004C0"

    def test_by_hand(self):
        point = {"type": "Point", "coordinates": [1, -2.5]}
        for text in (self.POINT, self.POINT.lower(), "00000000013FF0000000000000C004000000000000"):
            self.assertEqual(wkb.geometry_in(wkb.bytes_in(text)), (0, point))
        self.assertEqual(wkb.written(point), f"{self.POINT}\n")
        with_system = "0101000020110F0000000000000000F03F00000000000004C0"
        self.assertEqual(wkb.geometry_in(wkb.bytes_in(with_system)), (3857, point))
        self.assertEqual(wkb.written(point, 3857), f"{with_system}\n")
        for code in ("E9030000", "01000080"):
            height = wkb.bytes_in(f"01{code}000000000000F03F000000000000F03F000000000000F03F")
            self.assertEqual(wkb.geometry_in(height)[1]["coordinates"], [1, 1, 1])

    def test_there_and_back(self):
        for text in TEXTS:
            geometry = wkt.geometry_in(text)[1]
            if geometry["coordinates"] or geometry["type"] != "Point":
                self.assertEqual(wkb.geometry_in(wkb.bytes_in(wkb.written(geometry, 7))), (7, geometry), text)

    def test_faults(self):
        for text, fault in (("0", "no even count"), ("zz", "no even count"), ("", "it ends after 0 bytes"),
                            (self.POINT[:-2], "it ends after 20 bytes"), (f"{self.POINT}00", "1 bytes behind"),
                            ("02", "2 in the place of an order"), ("0163000000", "99 in the place of a kind"),
                            ("0103000000FFFFFFFF", "it ends after 9 bytes"), ("01D2070000", "measures"),
                            ("01020000400000000000", "measures"), ("01020000000500FF00", "it ends after 9"),
                            (f"010600000001000000{self.POINT}", "a Point in a MultiPolygon"),
                            ("0104000020110F0000010000000101000020E6100000000000000000F03F00000000000004C0",
                             "a part has another system, SRID 4326, than SRID 3857 before it"),
                            ("010700000001000000" * 60, "more than 50 collections")):
            with self.subTest(text), self.assertRaises(BadInput) as caught:
                wkb.geometry_in(wkb.bytes_in(text))
            self.assertIn(fault, str(caught.exception))

    @unittest.skipIf(shapes is None, "no python3 here has shapely (Debian's python3-shapely)")
    def test_as_shapely(self):
        for text, (kind, coordinates) in TEXTS.items():
            if "EMPTY" in text or "POINTZ" in text:
                continue
            geometry = {"type": kind, "coordinates": coordinates}
            other = wkt_of_shapely.loads(text)
            for big_endian in (False, True):
                digits = wkb_of_shapely.dumps(other, hex=True, big_endian=big_endian, srid=4326)
                self.assertEqual(wkb.geometry_in(wkb.bytes_in(digits)), (4326, geometry))
            self.assertEqual(wkb.written(geometry), f"{other.wkb_hex}\n")


class Files(unittest.TestCase):
    """Files of both, as those of a command."""

    def setUp(self):
        self.folder = in_folder(self)
        self.given, self.out = self.folder / "given.wkt", self.folder / "out.wkt"

    def simplified(self, text, *words, out=None):
        """The status of a command over a text, what it says, and what it leaves."""
        self.given.write_text(text)
        out = out or self.out
        status, said = told("simplify", self.given, "--out", out, *words)
        return status, said, out.read_text() if out.exists() else None

    def test_a_geometry_a_line(self):
        both = f"{TRIANGLE}\n\nMULTIPOLYGON (((9 0, 10 0, 10 1, 9 0)),\n  ((20 0, 21 0, 21 1, 20 0)))\n"
        left = ("MULTIPOLYGON (((4 4, 0 0, 4 0, 4 4)))\n"
                "MULTIPOLYGON (((10 1, 9 0, 10 0, 10 1)), ((21 1, 20 0, 21 0, 21 1)))\n")
        self.assertEqual(self.simplified(both), (0, "", left))
        digits = self.folder / "out.wkb"
        status, said, lines = self.simplified(both, out=digits)
        self.assertEqual((status, said, len(lines.splitlines())), (0, "", 2))
        status, said = told("simplify", digits, "--out", self.out)
        self.assertEqual((status, said, self.out.read_text()), (0, "", left))

    def test_faults_name_file_and_line(self):
        for text, fault in ((f"{TRIANGLE}\nPOINT (1 2", "line 2: no WKT: the end in the place of )"),
                            (f"{TRIANGLE}\n\nPOLYGON ((0 0, 1 1, 0 0))", "line 3, polygon 1, ring 1: 2 points"),
                            (f"{TRIANGLE}\nSRID=7;{TRIANGLE}", "line 2: its system is SRID 7, and that of the first"),
                            ("LINESTRING (0 0, 1 1)", "line 1: LineString in the place of Polygon")):
            status, said, left = self.simplified(text)
            self.assertEqual((status, left), (1, None))
            self.assertIn(f"polyover: given.wkt: {fault}", said)
        (self.folder / "given.wkb").write_text(f"{Bytes.POINT}\n01\n")
        said = told("simplify", self.folder / "given.wkb")[1]
        self.assertEqual(said, "polyover: given.wkb: line 2: no WKB: it ends after 1 bytes\n")

    def test_systems_are_kept(self):
        in_metres = f"SRID=3857;{TRIANGLE}\n"
        self.assertEqual(self.simplified(in_metres)[2], "SRID=3857;MULTIPOLYGON (((4 4, 0 0, 4 0, 4 4)))\n")
        left = json.loads(self.simplified(in_metres, out=self.folder / "out.geojson")[2])
        self.assertEqual(left["crs"]["properties"]["name"], "urn:ogc:def:crs:EPSG::3857")
        (self.folder / "given.geojson").write_text(json.dumps(left))
        said = told("overlay", self.folder / "given.geojson", self.folder / "given.geojson", "--out", self.out)
        self.assertEqual((*said, self.out.read_text()), (0, "", "SRID=3857;MULTIPOLYGON (((4 4, 0 0, 4 0, 4 4)))\n"))
        self.assertIn("GeoJSONSeq does not hold the system of coordinates EPSG:3857",
                      self.simplified(in_metres, out=self.folder / "out.geojsonl")[1])
        self.assertNotIn("crs", json.loads(self.simplified(f"SRID=4326;{TRIANGLE}\n",
                                                           out=self.folder / "out.geojson")[2]))

    def test_what_is_not_held(self):
        area = self.folder / "area.geojson"
        for members, what in (({"properties": {"name": "a"}}, "the property 'name'"), ({"id": 7}, "the member 'id'"),
                              ({"geometry": None}, "a feature without a geometry")):
            thing = {**feature("Polygon", [square(0, 0, 1, 1)]), **members}
            area.write_text(json.dumps(collection(feature("Polygon", [square(2, 0, 3, 1)]), thing)))
            status, said = told("simplify", area, "--out", self.out)
            self.assertEqual(said, f"polyover: {self.out.name}: WKT does not hold {what} (feature 2 of the answer);"
                                   " --drop leaves it out, with a warning\n")
            self.assertEqual((status, self.out.exists()), (1, False))
            status, said = told("simplify", area, "--out", self.out, "--drop")
            self.assertEqual((status, said), (0, f"polyover: {self.out.name}: {what}: left out once (the first:"
                                                 " feature 2 of the answer)\n"))
            self.out.unlink()


class Whole(unittest.TestCase):
    """Whole numbers that floats do not have: 2^53 + 1, and more."""

    NEAR, FAR = 2**53 + 1, 2**53 + 5
    AREA = f"POLYGON (({NEAR} 0, {FAR} 0, {FAR} 4, {NEAR} 4, {NEAR} 0))"

    def test_read_exactly(self):
        polygon, point = wkt.geometry_in(self.AREA)[1], wkt.geometry_in(f"POINT ({self.NEAR} 1 2.5e1)")[1]
        self.assertEqual(polygon["coordinates"][0][:2], [[self.NEAR, 0], [self.FAR, 0]])
        self.assertEqual(point["coordinates"], [self.NEAR, 1, 25.0])
        self.assertEqual(Scaled(1).locate(polygon, [(self.NEAR, 1), (self.NEAR + 1, 1), (self.NEAR - 1, 1)]),
                         ["boundary", "inside", "outside"])

    def test_answers_that_are_rounded_say_so(self):
        folder = in_folder(self)
        area = folder / "a.wkt"
        area.write_text(self.AREA)
        for name in ("b.wkt", "b.wkb", "b.geojson"):
            words = ["simplify", area, "--digits", "0", "--out", folder / name]
            self.assertEqual(told(*words, *["--drop"] * (name != "b.geojson")), (0, f"polyover: {ROUNDED}\n"), name)


if __name__ == "__main__":
    unittest.main()
