"""GeoPackages and Shapefiles: what they have is kept, as fiona reads it, and what they do not hold is named."""

import json
import os
import signal
import unittest
from time import sleep
from unittest import mock

from .features import collection, feature, in_folder, square, told
from .test_streams import begun, ended

try:
    import fiona
except ImportError:
    fiona = None

METRES = {"type": "name", "properties": {"name": "urn:ogc:def:crs:EPSG::3857"}}
OWN_SYSTEM = (
    'PROJCS["mine",GEOGCS["x",DATUM["d",SPHEROID["s",6370000,0]],PRIMEM["Greenwich",0],'
    'UNIT["degree",0.0174532925199433]],PROJECTION["Transverse_Mercator"],PARAMETER["central_meridian",3],UNIT["m",1]]'
)


def read(path, **how):
    """What fiona reads of a layer: its system, and of each feature the properties and the geometry."""
    with fiona.open(path, **how) as source:
        return source.crs.to_epsg(), [(dict(each["properties"]), each["geometry"]) for each in source]


def area(geometry):
    """The area of a geometry of polygons."""
    polygons = geometry["coordinates"] if geometry["type"] == "MultiPolygon" else [geometry["coordinates"]]
    rings = [abs(sum(a[0] * b[1] - b[0] * a[1] for a, b in zip(ring, ring[1:]))) / 2 for each in polygons
             for ring in each[:1]]
    return sum(rings)


class Missing(unittest.TestCase):
    """What is said where fiona is not installed."""

    def test_named(self):
        folder = in_folder(self)
        area = folder / "area.geojson"
        area.write_text(json.dumps(collection(feature("Polygon", [square(0, 0, 1, 1)]))))
        with mock.patch.dict("sys.modules", {"fiona": None}):
            for end, name in (("gpkg", "GeoPackage"), ("shp", "Shapefile")):
                fault = f"{name} takes fiona (Debian's python3-fiona), which is not installed\n"
                status, said = told("simplify", folder / f"a.{end}")
                self.assertEqual((status, said), (1, f"polyover: a.{end}: {fault}"))
                status, said = told("simplify", area, "--out", folder / f"a.{end}")
                self.assertEqual((status, said), (1, f"polyover: {fault}"))


@unittest.skipIf(fiona is None, "no python3 here has fiona (Debian's python3-fiona)")
class Tables(unittest.TestCase):
    """Files of both formats."""

    def setUp(self):
        self.folder = in_folder(self)

    def path(self, name):
        """A file of the folder."""
        return self.folder / name

    def given(self, *features, name="given.geojson", **members):
        """A file of GeoJSON."""
        self.path(name).write_text(json.dumps(collection(*features, **members)))
        return self.path(name)

    def made(self, name, kinds, *rows, kind="Polygon", **how):
        """A layer that fiona writes."""
        driver = "GPKG" if ".gpkg" in name else "ESRI Shapefile"
        schema = {"geometry": kind, "properties": kinds}
        with fiona.open(self.path(name), "w", driver=driver, schema=schema, **{"crs": "EPSG:3857", **how}) as layer:
            layer.writerecords({"type": "Feature", "geometry": geometry, "properties": properties}
                               for properties, geometry in rows)
        return self.path(name)

    def polygon(self, *box):
        """A geometry of a square."""
        return {"type": "Polygon", "coordinates": [square(*box)]}

    def test_properties_ids_and_systems_there_and_back(self):
        properties = {"name": "é", "count": 2**40, "share": 0.1, "since": None}
        features = [{**feature("Polygon", [square(0, 0, 2, 2)], **properties, dry=True), "id": 7},
                    {**feature("Polygon", [square(5, 0, 6, 2)], **dict.fromkeys(properties), dry=False), "id": 9},
                    {"type": "Feature", "id": 12, "properties": {"name": ""}, "geometry": None}]
        table = self.path("out.gpkg")
        self.assertEqual(told("simplify", self.given(*features, crs=METRES), "--out", table), (0, ""))
        code, rows = read(table)
        self.assertEqual((code, fiona.listlayers(table)), (3857, ["out"]))
        self.assertEqual([its for its, _ in rows], [{**properties, "dry": True},
                                                    {**dict.fromkeys(properties), "dry": False},
                                                    {**dict.fromkeys(properties), "name": "", "dry": None}])
        self.assertEqual([geometry and area(geometry) for _, geometry in rows], [4, 2, None])
        back = self.path("back.geojson")
        self.assertEqual(told("simplify", table, "--out", back), (0, ""))
        left = json.loads(back.read_text())
        self.assertEqual((left["crs"], [each["id"] for each in left["features"]]), (METRES, [7, 9, 12]))
        self.assertEqual(left["features"][0]["properties"], {**properties, "dry": True})

    def test_shapefiles(self):
        hole = feature("Polygon", [square(0, 0, 4, 4), square(1, 1, 2, 2)], name="é", count=7, share=0.25)
        out = self.path("out.shp")
        self.path("out.qix").write_text("old")
        self.assertEqual(told("simplify", self.given(hole, crs=METRES), "--out", out), (0, ""))
        code, ((properties, geometry),) = read(out)
        self.assertEqual((code, properties), (3857, {"name": "é", "count": 7, "share": 0.25}))
        self.assertEqual([len(ring) for ring in geometry["coordinates"]], [5, 5])
        self.assertEqual(sorted(each.name for each in self.folder.iterdir()), ["given.geojson"] + [
            f"out.{end}" for end in ("cpg", "dbf", "prj", "shp", "shx")])
        words = ["--keep", "--rule", "intersect", "--out", self.path("b.gpkg")]
        self.assertEqual(told("overlay", out, out, *words), (0, ""))
        self.assertEqual(read(self.path("b.gpkg"))[1][0][0], {"name": "é", "count": 7, "share": 0.25})

    def test_dates_stay_dates(self):
        row = ({"day": "2020-02-03", "at": "2020-02-03T04:05:06"}, self.polygon(0, 0, 1, 1))
        table = self.made("a.gpkg", {"day": "date", "at": "datetime"}, row)
        out = self.path("out.gpkg")
        self.assertEqual(told("simplify", table, "--out", out), (0, ""))
        with fiona.open(out) as source:
            self.assertEqual(dict(source.schema["properties"]), {"day": "date", "at": "datetime"})
        self.assertEqual(read(out)[1][0][0], read(table)[1][0][0])

    def test_each_command(self):
        areas = self.made("a.gpkg", {"name": "str"}, ({"name": "a"}, self.polygon(0, 0, 4, 4)))
        line, point = ({"type": kind, "coordinates": where} for kind, where in (
            ("LineString", [[-1, 1], [9, 1]]), ("Point", [1, 1, 5])))
        roads = self.made("roads.shp", {"lanes": "int"}, ({"lanes": 2}, line), kind="LineString")
        points = self.made("points.gpkg", {"location": "str"}, ({"location": "Rome"}, point), kind="3D Point")
        out = self.path("out.gpkg")
        self.assertEqual(told("clip", areas, roads, "--out", out), (0, ""))
        (its, geometry), = read(out)[1]
        self.assertEqual((its, geometry["coordinates"]), ({"lanes": 2}, [[(0, 1), (4, 1)]]))
        self.assertEqual(told("locate", areas, points, "--out", out), (0, ""))
        (its, geometry), = read(out)[1]
        self.assertEqual((its, geometry["coordinates"]), ({"location_1": "Rome", "location": "inside"}, (1, 1, 5)))
        status, said = told("tiles", areas, 2, 2, "--out", out)
        anew = "polyover: out.gpkg: 4 numbers of features (fid) are given anew (the first: feature 1 of the answer)\n"
        self.assertEqual((status, said), (0, anew))
        self.assertEqual([(its, area(geometry)) for its, geometry in read(out)[1]], [({"name": "a"}, 4)] * 4)
        self.assertEqual(told("overlay", areas, areas, "--out", out, "--svg", self.path("a.svg")), (0, ""))
        self.assertTrue(self.path("a.svg").exists())
        self.assertEqual(told("clip", areas, self.made("far.shp", {}, kind="LineString"), "--out", self.path("no.shp")),
                         (0, ""))
        with fiona.open(self.path("no.shp")) as source:
            self.assertEqual((len(source), source.schema["geometry"]), (0, "LineString"))

    def test_layers(self):
        table = self.made("a.gpkg", {}, ({}, self.polygon(0, 0, 1, 1)), layer="one")
        self.made("a.gpkg", {}, ({}, self.polygon(0, 0, 3, 1)), layer="two")
        self.assertEqual(told("simplify", table), (1, f"polyover: a.gpkg: it has the layers one, two: name one, as"
                                                      f" {table}:one\n".replace(f"{self.folder}/", "")))
        out = self.path("out.gpkg")
        self.assertEqual(told("simplify", f"{table}:two", "--out", f"{out}:wide"), (0, ""))
        self.assertEqual((fiona.listlayers(out), area(read(out)[1][0][1])), (["wide"], 3))
        self.assertIn("it has no layer three, but one, two", told("simplify", f"{table}:three")[1])
        status, said = told("simplify", f"{table}:one", "--out", table)
        self.assertEqual((status, fiona.listlayers(table)), (1, ["one", "two"]))
        self.assertIn("a.gpkg: it has other layers, which would go: one, two", said)

    def test_systems(self):
        degrees = self.made("a.gpkg", {}, ({}, self.polygon(0, 0, 1, 1)), crs="EPSG:4326")
        metres = self.made("b.shp", {}, ({}, self.polygon(0, 0, 1, 1)))
        said = told("relate", degrees, metres, "--out", self.path("c.json"))[1]
        self.assertIn("a.gpkg and b.shp state different systems: coordinates are taken as they are\n", said)
        out = self.path("out.geojson")
        self.assertEqual(told("simplify", degrees, "--out", out), (0, ""))
        self.assertNotIn("crs", json.loads(out.read_text()))
        self.assertEqual(told("simplify", self.given(feature("Polygon", [square(0, 0, 1, 1)])), "--out",
                              self.path("d.gpkg")), (0, ""))
        self.assertEqual(read(self.path("d.gpkg"))[0], 4326)
        own = self.made("own.gpkg", {}, ({}, self.polygon(0, 0, 1, 1)), crs=None, crs_wkt=OWN_SYSTEM)
        self.assertEqual(told("simplify", own, "--out", self.path("e.gpkg")), (0, ""))
        with fiona.open(own) as one, fiona.open(self.path("e.gpkg")) as other:
            self.assertEqual(one.crs_wkt, other.crs_wkt)
        for name, what in (("f.geojson", "GeoJSON"), ("f.geojsonl", "GeoJSONSeq"), ("f.wkb", "WKB")):
            status, said = told("simplify", own, "--out", self.path(name))
            self.assertEqual((status, self.path(name).exists()), (1, False))
            self.assertIn(f"{name}: {what} does not hold", said)
        wide = self.made("wide.gpkg", {}, ({}, self.polygon(-170, 0, 170, 1)), crs="EPSG:4326")
        self.assertIn("wide.gpkg: 1 ring spans more than 180 degrees", told("simplify", wide, "--out", out)[1])

    def test_what_is_not_held(self):
        cases = (
            ("gpkg", {"many": [1]}, {}, "the property 'many', whose values are of no kind that it has"),
            ("gpkg", {"fid": 1}, {}, "the property 'fid', whose name is that of a column of its own"),
            ("gpkg", {"a": 2**70}, {}, "the property 'a', whose values"),
            ("gpkg", {"a": 1, "A": 2}, {}, "the property 'A', whose name is that of another"),
            ("gpkg", {}, {"id": "x"}, "the ids of features, which are no whole numbers that come once"),
            ("gpkg", {}, {"more": 1}, "the member 'more'"),
            ("shp", {"long_name_of_it": 1}, {}, "the property 'long_name_of_it', whose name is longer than 10 bytes"),
            ("shp", {"dry": True}, {}, "the property 'dry', whose values"),
            ("shp", {"a": ""}, {}, "the value '' of the property 'a'"),
            ("shp", {"a": "x" * 300}, {}, "the value 'xxx"),
            ("shp", {"a": 1e-20}, {}, "the value 1e-20 of the property 'a'"),
            ("shp", {}, {"id": 1}, "the ids of features"),
        )
        for end, properties, members, what in cases:
            thing = {**feature("Polygon", [square(0, 0, 1, 1)], **properties), **members}
            out = self.path(f"out.{end}")
            status, said = told("simplify", self.given(thing), "--out", out)
            there = [each.name for each in self.folder.iterdir()]
            self.assertEqual((status, there), (1, ["given.geojson"]), said)
            self.assertIn(f"out.{end}: {'GeoPackage' if end == 'gpkg' else 'Shapefile'} does not hold {what}", said)
            status, said = told("simplify", self.given(thing), "--out", out, "--drop")
            self.assertEqual((status, len(read(out)[1])), (0, 1), said)
            self.assertIn(what, said)
            for each in self.folder.glob("out.*"):
                each.unlink()
        points = self.given(feature("Point", [1, 1]), feature("Point", [1, 1, 5]), name="points.geojson")
        area = self.given(feature("Polygon", [square(0, 0, 1, 1)]))
        said = told("locate", area, points, "--out", self.path("a.shp"))[1]
        self.assertIn("Shapefile holds geometries of one kind", said)
        # (GeoPackage does)
        self.assertEqual(told("locate", area, points, "--out", self.path("a.gpkg")), (0, ""))
        self.assertEqual([geometry["coordinates"] for _, geometry in read(self.path("a.gpkg"))[1]], [(1, 1), (1, 1, 5)])

    def test_faults(self):
        self.assertEqual(told("simplify", self.path("no.gpkg")), (1, "polyover: no.gpkg: No such file or directory\n"))
        self.path("bad.gpkg").write_text("x" * 500)
        self.assertIn("bad.gpkg: ", told("simplify", self.path("bad.gpkg"))[1])
        table = self.made("a.gpkg", {"raw": "bytes"}, ({"raw": b"a"}, self.polygon(0, 0, 1, 1)))
        self.assertEqual(told("simplify", table)[1],
                         "polyover: a.gpkg: feature 1: the property 'raw' has bytes, which are not taken\n")
        line = {"type": "LineString", "coordinates": [[0, 0], [1, 1]]}
        line = self.made("b.gpkg", {}, ({}, line), kind="LineString")
        self.assertEqual(told("simplify", line)[1], "polyover: b.gpkg: feature 1: LineString in the place of Polygon or"
                                                    " MultiPolygon\n")

    def test_numbers_of_features_are_left_out_of_wkt(self):
        table = self.made("a.gpkg", {}, ({}, self.polygon(0, 0, 1, 1)), crs="EPSG:4326")
        out = self.path("out.wkt")
        status, said = told("simplify", table, "--out", out)
        self.assertEqual((status, out.read_text()), (0, "MULTIPOLYGON (((0 1, 0 0, 1 0, 1 1, 0 1)))\n"))
        self.assertIn("out.wkt: 1 number of a feature (fid) is left out (the first: feature 1 of the answer)\n", said)

    def test_to_what_is_no_plain_file(self):
        pipe = self.path("pipe.gpkg")
        os.mkfifo(pipe)
        area = self.given(feature("Polygon", [square(0, 0, 1, 1)]))
        self.assertEqual(told("simplify", area, "--out", pipe),
                         (1, "polyover: pipe.gpkg: GeoPackage goes to a plain file alone\n"))
        self.assertTrue(pipe.is_fifo())

    def test_interrupted(self):
        """Ctrl-C while a table is written: nothing of it is left."""
        area = self.given(*[feature("Polygon", [square(x, 0, x + 1, 1)], name="a") for x in range(4000)])
        out = self.path("out.gpkg")
        for wait in (0, 0.05, 0.2):
            command = begun(["simplify", area, "--out", out, "--quiet"])
            # (a folder beside the file is there while the table is written)
            while not list(self.folder.glob(".*")) and command.poll() is None:
                sleep(0.01)
            sleep(wait)
            command.send_signal(signal.SIGINT)
            status, said = ended(command)
            there = [each.name for each in self.folder.iterdir() if each != out]
            self.assertEqual((said, there), ("", ["given.geojson"]))
            # (the signal may come once the file is there)
            self.assertIn(status, (0, -signal.SIGINT) if out.exists() else (-signal.SIGINT,))
            self.assertEqual(len(read(out)[1]) if out.exists() else 4000, 4000)
            out.unlink(missing_ok=True)

    def test_files_are_left_whole(self):
        area = self.given(feature("Polygon", [square(0, 0, 1, 1)], name="new"))
        out = self.made("out.gpkg", {"name": "str"}, ({"name": "old"}, self.polygon(0, 0, 1, 1)), layer="out")
        before = out.read_bytes()
        for patched in ("os.replace", "polyover.tables.Table.compare"):
            with mock.patch(patched, side_effect=OSError(28, "No space left on device")):
                self.assertEqual(told("simplify", area, "--out", out)[0], 1)
            self.assertEqual((out.read_bytes(), len(list(self.folder.iterdir()))), (before, 2))
        self.assertEqual(told("simplify", area, "--out", out), (0, ""))
        self.assertEqual(read(out)[1][0][0], {"name": "new"})


if __name__ == "__main__":
    unittest.main()
