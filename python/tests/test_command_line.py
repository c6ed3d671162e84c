"""Commands on files: many features at once, properties, and files that are left whole or not at all."""

import contextlib
import io
import json
import os
import random
import resource
import subprocess
import sys
import tempfile
import unittest
from math import cos, pi, sin
from pathlib import Path
from unittest import mock

import polyover
from polyover import library
from polyover.__main__ import main

try:
    from polyover.contour import points_in, row_of
    from polyover.nearby import Nearby
except ImportError:
    Nearby = None

try:
    from shapely.geometry import Polygon
except ImportError:
    Polygon = None

from .features import collection, feature, ran, square
from .there import with_library

MODULE = Path(__file__).resolve().parents[1]
ROUND = 20_000


def lake(count, chance):
    """A ring of many points round the origin, at some 0.5 from it."""
    reach = [0.5 + chance.uniform(-0.02, 0.02) for _ in range(count)]
    turns = [at * 2 * pi / count for at in range(count)]
    ring = [[round(r * cos(turn), 7), round(r * sin(turn), 7)] for turn, r in zip(turns, reach)]
    return [*ring, ring[0]]


def roads(count, chance):
    """Features of lines of a few points, across the lake, each with a name."""
    counts = [chance.randint(2, 6) for _ in range(count)]
    lines = [[[round(chance.uniform(-1, 1), 7) for _ in range(2)] for _ in range(most)] for most in counts]
    return [feature("LineString", line, name=at) for at, line in enumerate(lines)]


def part_of(shape, lines):
    """The part of a shape near lines."""
    return list(map(points_in, shape.part(list(map(row_of, lines)))))


class Many(unittest.TestCase):
    """Clips of many features."""

    @with_library
    def test_200_roads_over_a_lake(self):
        chance = random.Random(8)
        area, lines = collection(feature("Polygon", [lake(ROUND, chance)])), collection(*roads(200, chance))
        with tempfile.TemporaryDirectory() as name:
            files = [Path(name, each) for each in ("a.geojson", "b.geojson")]
            for file, thing in zip(files, (area, lines)):
                file.write_text(json.dumps(thing))
            words = [sys.executable, "-m", "polyover", "clip", *map(str, files), "--out", str(Path(name, "c.geojson"))]
            before = resource.getrusage(resource.RUSAGE_CHILDREN)
            subprocess.run(words, cwd=MODULE, check=True, stderr=subprocess.DEVNULL)
            after = resource.getrusage(resource.RUSAGE_CHILDREN)
            found = json.loads(Path(name, "c.geojson").read_text())["features"]
        # (seconds of processor time; one call for each road with the whole lake takes more than 20)
        self.assertLess(after.ru_utime + after.ru_stime - before.ru_utime - before.ru_stime, 3)
        self.assertGreater(len(found), 150)
        names = [each["properties"]["name"] for each in found]
        self.assertEqual(names, sorted(set(names)))

    def test_the_part_nearby_answers_as_the_whole(self):
        chance = random.Random(9)
        scaled = polyover.Scaled.of_digits(7)
        shape = scaled.whole(polyover.contours_of({"type": "Polygon", "coordinates": [lake(1500, chance)]}))
        near = Nearby(map(row_of, shape))
        for each in roads(40, chance):
            lines = scaled.whole(polyover.lines_of(each))
            for options in ({}, {"invert": True}, {"boundary": True}):
                found = polyover.clip(part_of(near, lines), lines, **options)
                expected = polyover.clip(shape, lines, **options)
                self.assertEqual([len(path) for path in found], [len(path) for path in expected])
                far = [abs(u - v) for a, b in zip(found, expected) for p, q in zip(a, b) for u, v in zip(p, q)]
                self.assertLessEqual(max(far, default=0), 1)

    def test_the_part_nearby_along_a_grid_exactly(self):
        chance = random.Random(10)
        steps = [(x, chance.randint(0, 3000)) for x in range(0, 40000, 10)]
        upper = [point for (x, y), (u, _) in zip(steps, steps[1:]) for point in ((x, y), (u, y))]
        shape = [[*upper, (39990, -9000), (0, -9000)]]
        near = Nearby(map(row_of, shape))
        self.assertLess(sum(map(len, part_of(near, [[(5, 9000), (5, -9999)]]))), 500)
        for _ in range(60):
            x, y = chance.randint(-9, 40009), chance.randint(-9999, 3999)
            along, down = chance.randint(1, 99), chance.randint(1, 9999)
            lines = [[(x, y), (x + along, y), (x + along, y - down)]]
            for options in ({}, {"invert": True}, {"boundary": True}):
                found = polyover.clip(part_of(near, lines), lines, **options)
                self.assertEqual(found, polyover.clip(shape, lines, **options))


class Members(unittest.TestCase):
    """What features and collections have beside geometries."""

    def test_empty_results_leave_no_features(self):
        area = collection(feature("Polygon", [square(0, 0, 2, 2)]))
        lines = collection(feature("LineString", [[5, 1], [9, 1]]), feature("LineString", [[1, 1], [9, 1]], name="in"))
        _, left, _, _ = ran("clip", area, lines)
        self.assertEqual([each["properties"] for each in left["features"]], [{"name": "in"}])
        other = collection(feature("Polygon", [square(5, 5, 6, 6)]))
        self.assertEqual(ran("overlay", area, other, words=["--rule", "intersect"])[1]["features"], [])

    def test_members_are_kept(self):
        area = collection(feature("Polygon", [square(0, 0, 2, 2)]))
        road = {**feature("LineString", [[-1, 1], [3, 1]], name="é", nothing=None, many=[1, {"a": 2.5}]), "id": "r1",
                "more": [1], "bbox": [-1, 1, 3, 1]}
        bare = {"type": "Feature", "properties": None, "geometry": road["geometry"]}
        crs = {"type": "name", "properties": {"name": "urn:ogc:def:crs:OGC:1.3:CRS84"}}
        _, left, said, _ = ran("clip", area, collection(road, bare, crs=crs, name="roads", bbox=[-1, 1, 3, 1]))
        one, two = left["features"]
        for name in ("id", "more", "properties"):
            self.assertEqual(one[name], road[name])
        self.assertEqual((one["bbox"], left["bbox"], "bbox" in two), ([0, 1, 2, 1], [0, 1, 2, 1], False))
        self.assertEqual((two["properties"], left["crs"], left["name"], said), (None, crs, "roads", ""))

    def test_two_members_of_one_name(self):
        area = collection(feature("Polygon", [square(0, 0, 2, 2)]))
        twice = '{"type": "Feature", "properties": {"a": 1, "a": 2}, "geometry": null}'
        status, _, said, _ = ran("relate", area, None, raw=twice)
        self.assertEqual((status, said), (1, "polyover: b.geojson: the member 'a' comes twice in one object\n"))


class Polygons(unittest.TestCase):
    """Commands over polygons by themselves, and over points."""

    CROSSED = feature("Polygon", [[[0, 0], [4, 4], [4, 0], [0, 4], [0, 0]]], name="bow")

    def rings(self, left):
        """The numbers of rings of the polygons of each feature."""
        return [[len(shape) for shape in each["geometry"]["coordinates"]] for each in left["features"]]

    def test_simplify(self):
        given = collection(self.CROSSED, feature("Polygon", [square(9, 0, 11, 1)], name="box"))
        _, left, said, _ = ran("simplify", given)
        self.assertEqual(self.rings(left), [[1, 1], [1]])
        self.assertEqual([each["properties"]["name"] for each in left["features"]], ["bow", "box"])
        self.assertIn("1 ring crosses or overlaps itself, and covers what it winds round "
                      "(the first: feature 1, polygon 1, ring 1)", said)
        # (each half of the bow has an area of 4, the box 2)
        self.assertEqual(self.rings(ran("simplify", given, words=["--min-area", "3.5"])[1]), [[1, 1]])

    def test_a_warning_comes_once(self):
        given = collection(*[self.CROSSED] * 3)
        told = ("polyover: a.geojson: 3 rings cross or overlap themselves, and cover what they wind round "
                "(the first: feature 1, polygon 1, ring 1)\n")
        other = collection(feature("Polygon", [square(0, 0, 9, 9)]))
        fence = collection(feature("LineString", [[0, 1], [9, 1]]))
        for given_words in (("simplify", given), ("tiles", given), ("slice", given, fence), ("overlay", given, other)):
            words = ["1", "1"] if given_words[0] == "tiles" else []
            self.assertEqual(ran(*given_words, words=words)[2], told)
        for keep in ("first", "both"):
            words = ["--keep", keep, "--rule", "intersect"]
            self.assertEqual(ran("overlay", given, other, words=words)[2], told)

    def test_areas_that_equal_the_smallest(self):
        triangle = collection(feature("Polygon", [[[0, 0], [5, 0], [0, 1], [0, 0]]]))
        other = collection(feature("Polygon", [square(0, 0, 9, 9)]))
        # (whose area is 2 and a half)
        for area, found in (("2", [[1]]), ("2.5", [[1]]), ("5/2", [[1]]), ("2.6", []), ("3", [])):
            words = ["--min-area", area, "--digits", "0"]
            both = [*words, "--rule", "intersect"]
            self.assertEqual(self.rings(ran("simplify", triangle, words=words)[1]), found, area)
            self.assertEqual(self.rings(ran("overlay", triangle, other, words=both)[1]), found, area)
            self.assertEqual(self.rings(ran("overlay", triangle, other, words=[*both, "--keep"])[1]), found, area)
        status, left, said, _ = ran("simplify", triangle, words=["--min-area", "1e40"])
        self.assertEqual((status, left, said.startswith("polyover: the minimum area 1")), (1, None, True))
        for area in ("1e999999999", "-1", "x", "1" * 101):
            with self.assertRaises(SystemExit) as ended:
                ran("simplify", triangle, words=["--min-area", area])
            self.assertEqual(ended.exception.code, 2)

    def test_fill(self):
        one = collection(feature("MultiPolygon", [[square(0, 0, 4, 4)], [square(1, 1, 3, 3)]]))
        other = collection(feature("Polygon", [square(0, 0, 9, 9)]))
        for fill, rings in ((), [[1]]), (("evenodd",), [[2]]), (("negative",), []):
            words = ["--rule", "intersect", *(["--fill", *fill] if fill else [])]
            self.assertEqual(self.rings(ran("overlay", one, other, words=words)[1]), rings)

    def test_tiles(self):
        _, left, _, _ = ran("tiles", collection(feature("Polygon", [square(0, 0, 4, 4)], name="a")), words=["2", "2.5"])
        self.assertEqual([each["properties"] for each in left["features"]], [{"name": "a"}] * 4)

    def test_locate(self):
        area = collection(feature("MultiPolygon", [[square(0, 0, 4, 4), square(1, 1, 2, 2)], [square(3, 3, 5, 5)]]))
        many = {"type": "Feature", "id": 7, "properties": {"a": 1},
                "geometry": {"type": "MultiPoint", "coordinates": [[3.5, 3.5], [1.5, 1.5]]}}
        points = collection(feature("Point", [1, 1, 8]), many, feature("Point", [9, 9]))
        _, left, said, _ = ran("locate", area, points)
        told = [each["properties"]["location"] for each in left["features"]]
        self.assertEqual((told, said), (["boundary", ["inside", "outside"], "outside"], ""))
        self.assertEqual(left["features"][1]["id"], 7)
        self.assertEqual(left["features"][0]["geometry"], {"type": "Point", "coordinates": [1, 1, 8]})

    def test_locate_leaves_out_what_has_no_point(self):
        area = collection(feature("Polygon", [square(0, 0, 4, 4)]))
        null = {"type": "Feature", "properties": {}, "geometry": None}
        points = collection(feature("Polygon", [square(0, 0, 1, 1)]), null, feature("Point", [1, 1]),
                            feature("MultiPoint", []))
        _, left, said, _ = ran("locate", area, points)
        self.assertEqual(left["features"], [null, feature("Point", [1, 1], location="inside")])
        self.assertIn("b.geojson: 2 features without a point are left out (the first: feature 1)", said)

    def test_locate_keeps_a_property_of_that_name(self):
        area = collection(feature("Polygon", [square(0, 0, 4, 4)]))
        points = collection(feature("Point", [1, 1], location="Rome", name="a"), feature("Point", [9, 9], name="b"))
        _, left, said, _ = ran("locate", area, points)
        self.assertEqual([each["properties"] for each in left["features"]], [
            {"location_1": "Rome", "name": "a", "location": "inside"}, {"name": "b", "location": "outside"},
        ])
        self.assertEqual(said, "")
        points["features"][1]["properties"]["location_1"] = "taken"
        _, left, _, _ = ran("locate", area, points)
        self.assertEqual([each["properties"] for each in left["features"]], [
            {"location_2": "Rome", "name": "a", "location": "inside"},
            {"location_1": "taken", "name": "b", "location": "outside"},
        ])

    def test_overlays_that_keep_features(self):
        parcels = collection(feature("Polygon", [square(0, 0, 2, 2)], owner="a"),
                             feature("Polygon", [square(2, 0, 4, 2)], owner="b"),
                             feature("Polygon", [square(8, 0, 9, 2)], owner="c"), name="parcels")
        zone = collection(feature("Polygon", [square(1, -1, 3, 3)]), feature("Polygon", [square(50, 50, 60, 60)]))
        _, left, _, _ = ran("overlay", parcels, zone, words=["--rule", "intersect", "--keep"])
        found = {each["properties"]["owner"]: each["geometry"]["coordinates"] for each in left["features"]}
        self.assertEqual((sorted(found), left["name"]), (["a", "b"], "parcels"))
        self.assertEqual(sorted(map(tuple, found["a"][0][0][1:])), [(1, 0), (1, 2), (2, 0), (2, 2)])
        _, left, _, _ = ran("overlay", parcels, zone, words=["--rule", "difference", "--keep"])
        self.assertEqual([each["properties"]["owner"] for each in left["features"]], ["a", "b", "c"])
        self.assertIn("--keep goes with the rules", ran("overlay", parcels, zone, words=["--keep"])[2])

    def test_other_systems_of_coordinates(self):
        crs = [{"type": "name", "properties": {"name": name}} for name in ("EPSG:4326", "EPSG:3857")]
        one, two = (collection(self.CROSSED, crs=each) for each in crs)
        self.assertIn("a.geojson and b.geojson state different systems", ran("relate", one, two)[2])
        self.assertEqual(ran("overlay", one, one)[1]["crs"], crs[0])

    def test_systems_that_features_and_geometries_state(self):
        metres, same, other = ({"type": "name", "properties": {"name": name}}
                               for name in ("EPSG:3857", "urn:ogc:def:crs:EPSG::3857", "EPSG:25832"))
        one = self.CROSSED["geometry"]
        for thing in ({**one, "crs": metres}, {**self.CROSSED, "crs": metres},
                      {**self.CROSSED, "geometry": {**one, "crs": metres}},
                      collection({**self.CROSSED, "geometry": {**one, "crs": same}}, crs=metres)):
            _, left, said, _ = ran("simplify", thing)
            self.assertEqual((left["crs"], len(left["features"]), "crs" in left["features"][0]), (metres, 1, False))
            self.assertNotIn("system", said)
            self.assertIn("state different systems", ran("relate", thing, {**one, "crs": other})[2])
        two = collection({**self.CROSSED, "crs": metres}, {**self.CROSSED, "crs": other})
        status, left, said, _ = ran("simplify", two)
        self.assertEqual((status, left), (1, None))
        self.assertIn("a.geojson: feature 2: its member crs is another", said)


class Files(unittest.TestCase):
    """Files are read whole, and left whole."""

    AREA = collection(feature("Polygon", [square(0, 0, 2, 2)]))

    def test_properties_that_json_does_not_hold(self):
        raw = json.dumps(feature("Polygon", [square(0, 0, 2, 2)], height=0)).replace('"height": 0', '"height": 1e400')
        status, left, said, there = ran("simplify", None, raw=raw)
        self.assertEqual((status, left, there), (1, None, ["a.geojson"]))
        self.assertIn("feature 1 of the answer: JSON holds finite numbers alone, and no inf as properties.height", said)
        self.assertEqual(ran("relate", None, None, raw=raw)[0], 0)

    def test_what_is_no_json(self):
        for raw, told in (
            ("", "b.geojson: Expecting value"),
            ("{", "b.geojson: Expecting property name"),
            ("[" * 100_000, "b.geojson: too many lists or objects in one another"),
            ("[]", r"b.geojson: [] is no geometry"),
            ('{"type": "Polygon", "coordinates": [[[0, 0], [1, 0], [1e999, 1]]]}', "b.geojson: feature 1, polygon 1"),
        ):
            status, left, said, _ = ran("relate", self.AREA, None, raw=raw)
            self.assertEqual((status, left), (1, None))
            self.assertIn(told, said)

    def test_a_mark_of_the_order_of_bytes(self):
        self.assertEqual(ran("relate", self.AREA, None, raw="\ufeff" + json.dumps(self.AREA))[0], 0)

    def test_no_file_is_left_in_part(self):
        before = {"kept": True}
        with tempfile.TemporaryDirectory() as name:
            area, out = Path(name, "a.geojson"), Path(name, "out.geojson")
            area.write_text(json.dumps(self.AREA))
            out.write_text(json.dumps(before))
            words = ["overlay", str(area), str(area), "--out", str(out)]
            for svg in (str(Path(name, "nowhere", "c.svg")), str(out), name):
                with contextlib.redirect_stderr(io.StringIO()):
                    self.assertEqual(main([*words, "--svg", svg]), 1)
                self.assertEqual((json.loads(out.read_text()), len(list(Path(name).iterdir()))), (before, 2))
            with mock.patch("os.replace", side_effect=OSError("no")), contextlib.redirect_stderr(io.StringIO()):
                self.assertEqual(main(words), 1)
            self.assertEqual((json.loads(out.read_text()), len(list(Path(name).iterdir()))), (before, 2))
            out.chmod(0o640)
            self.assertEqual(main(words), 0)
            self.assertEqual((len(json.loads(out.read_text())["features"]), out.stat().st_mode & 0o777), (1, 0o640))

    def test_to_what_is_no_plain_file(self):
        with tempfile.TemporaryDirectory() as name:
            area, link, target = Path(name, "a.geojson"), Path(name, "link"), Path(name, "target")
            area.write_text(json.dumps(self.AREA))
            link.symlink_to(target)
            self.assertEqual(main(["relate", str(area), str(area), "--out", os.devnull]), 0)
            self.assertFalse(Path(os.devnull).is_file())
            self.assertEqual(main(["relate", str(area), str(area), "--out", str(link)]), 0)
            self.assertTrue(link.is_symlink() and json.loads(target.read_text())["within"])

    @unittest.skipIf(Polygon is None, "no python3 here has shapely (Debian's python3-shapely)")
    def test_wkt_and_wkb(self):
        with tempfile.TemporaryDirectory() as name:
            text, data, out = (Path(name, each) for each in ("a.wkt", "b.wkb", "c.geojson"))
            text.write_text("POLYGON ((0 0, 2 0, 2 2, 0 2, 0 0))")
            data.write_bytes(Polygon([(1, 1), (3, 1), (3, 3), (1, 3)]).wkb)
            self.assertEqual(main(["overlay", str(text), str(data), "--rule", "intersect", "--out", str(out)]), 0)
            rings = json.loads(out.read_text())["features"][0]["geometry"]["coordinates"]
            self.assertEqual(Polygon(rings[0][0]).area, 1)
            text.write_text("POLYGON ((0 0, 2 0")
            said = io.StringIO()
            with contextlib.redirect_stderr(said):
                self.assertEqual(main(["relate", str(text), str(data)]), 1)
            self.assertIn("a.wkt: line 1: no WKT: the end in the place of )", said.getvalue())

    def test_formats_that_are_not_taken(self):
        with tempfile.TemporaryDirectory() as name:
            area = Path(name, "a.geojson")
            area.write_text(json.dumps(self.AREA))
            for words, fault in ((["simplify", str(area), "--out", f"{name}/b.parquet"], "GeoParquet is not taken"),
                                 (["simplify", f"{name}/b.fgb"], "FlatGeobuf is not taken"),
                                 (["simplify", f"{name}/b.GeoJSON.gz"], "a compressed file is not taken"),
                                 (["simplify", str(area), "--out", f"{name}/b.kml"], "KML is not taken"),
                                 (["relate", str(area), str(area), "--out", f"{name}/b.wkt"],
                                  "relations are JSON, and not WKT")):
                said = io.StringIO()
                with contextlib.redirect_stderr(said):
                    self.assertEqual(main(words), 1)
                self.assertIn(f"polyover: {name}/b.", said.getvalue())
                self.assertIn(fault, said.getvalue())
            self.assertEqual(len(list(Path(name).iterdir())), 1)

    def test_standard_input(self):
        with tempfile.TemporaryDirectory() as name:
            area = Path(name, "a.geojson")
            area.write_text(json.dumps(self.AREA))
            words = [sys.executable, "-m", "polyover", "relate", "-", str(area)]
            done = subprocess.run(words, cwd=MODULE, input=area.read_bytes(), capture_output=True, check=True)
            self.assertTrue(json.loads(done.stdout)["within"])
            bad = subprocess.run(words, cwd=MODULE, input=b"{", capture_output=True, check=False)
            self.assertIn(b"polyover: standard input: Expecting", bad.stderr)
        said = io.StringIO()
        with contextlib.redirect_stderr(said):
            self.assertEqual(main(["relate", "-", "-"]), 1)
        self.assertIn("standard input can't be two files", said.getvalue())

    def test_nothing_to_ask(self):
        nowhere = {library.VARIABLE: "", "POLYOVER_PROGRAM": "/nowhere/polyover"}
        with mock.patch.dict(os.environ, nowhere):
            status, left, said, _ = ran("overlay", self.AREA, self.AREA)
        self.assertEqual((status, left), (1, None))
        self.assertIn("no program at /nowhere/polyover", said)


if __name__ == "__main__":
    unittest.main()
