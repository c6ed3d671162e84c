"""Members that geometries have beside their coordinates: no command keeps them, and each says so."""

import json
import unittest
import warnings

import polyover

from .features import collection, feature, in_folder, ran, square, told

METRES = {"type": "name", "properties": {"name": "EPSG:3857"}}
AREA = collection(feature("Polygon", [square(0, 0, 4, 4)]))


def with_members(kind, coordinates, **members):
    """A feature whose geometry has members more."""
    found = feature(kind, coordinates, name="kept")
    found["geometry"].update(members)
    return found


class Commands(unittest.TestCase):
    """What is left, and what is said."""

    def check(self, command, first, second, said, words=()):
        """That a command answers, says that, and leaves geometries with coordinates alone."""
        status, left, lines, _ = ran(command, *filter(None, (first, second)), words=words)
        self.assertEqual((status, lines), (0, "".join(f"polyover: {line}\n" for line in said)))
        for each in left["features"] if "features" in left else ():
            self.assertEqual(set(each["geometry"]), {"type", "coordinates"})
        return left

    def test_each_command(self):
        named = collection(with_members("Polygon", [square(1, 1, 2, 2)], name="a"))
        for command, words in (("overlay", ()), ("overlay", ("--keep", "--rule", "intersect")),
                               ("overlay", ("--keep", "both")), ("relate", ("--solver", "snapped"))):
            said = ["a.geojson: the member 'name' of 1 geometry is left out (the first: feature 1)"]
            self.check(command, named, AREA, said, words)
            self.check(command, AREA, named, [each.replace("a.", "b.", 1) for each in said], words)
        said = ["a.geojson: the member 'name' of 1 geometry is left out (the first: feature 1)"]
        left = self.check("simplify", named, None, said)
        self.assertEqual(left["features"][0]["properties"], {"name": "kept"})
        road = collection(with_members("LineString", [[1, 1], [9, 1]], name="a"))
        point = collection(with_members("Point", [1, 1], name="a"))
        for command, thing in (("clip", road), ("slice", road), ("locate", point)):
            said = ["b.geojson: the member 'name' of 1 geometry is left out (the first: feature 1)"]
            self.check(command, AREA, thing, said)

    def test_a_box_that_no_longer_fits(self):
        # (the part inside is from (0, 1) to (4, 1): the box of the feature is told anew, that of the line is not kept)
        road = with_members("LineString", [[-1, 1], [5, 1]], bbox=[-1, 1, 5, 1])
        left = self.check("clip", AREA, {**road, "bbox": [-1, 1, 5, 1]},
                          ["b.geojson: the member 'bbox' of 1 geometry is left out (the first: feature 1)"])
        (found,) = left["features"]
        self.assertEqual((found["bbox"], found["geometry"]["coordinates"]), ([0, 1, 4, 1], [[[0, 1], [4, 1]]]))

    def test_many_geometries(self):
        two = [with_members("LineString", [[1, at], [2, at]], note=at, more=[]) for at in (1, 2)]
        parts = with_members("LineString", [[1, 3], [2, 3]], note="#")["geometry"]
        group = {"type": "Feature", "properties": None,
                 "geometry": {"type": "GeometryCollection", "geometries": [parts, parts], "group": 1}}
        plain = feature("LineString", [[1, 3], [2, 3]])
        self.check("clip", AREA, collection(plain, *two, group), [
            "b.geojson: the member 'note' of 4 geometries is left out (the first: feature 2)",
            "b.geojson: the member 'more' of 2 geometries is left out (the first: feature 2)",
            "b.geojson: the member 'group' of 1 geometry is left out (the first: feature 4)",
        ])
        self.check("clip", AREA, {**parts, "a#b": 1},
                   ["b.geojson: the member 'note' of 1 geometry is left out (the first: feature 1)",
                    "b.geojson: the member 'a#b' of 1 geometry is left out (the first: feature 1)"])

    def test_systems_of_geometries(self):
        road = with_members("LineString", [[-1, 1], [5, 1]], crs=METRES)
        # (of a file of GeoJSON it is that of the file, and kept)
        self.assertEqual(self.check("clip", AREA, road, [])["crs"], METRES)
        folder = in_folder(self)
        area, roads, out = (folder / name for name in ("area.geojson", "roads.geojsonl", "out.geojsonl"))
        area.write_text(json.dumps({**AREA, "crs": METRES}))
        three = road, feature("LineString", [[1, 2], [5, 2]]), road
        roads.write_text("".join(f"{json.dumps(each)}\n" for each in three))
        # (of a sequence it is that of its first feature)
        words = "clip", area, roads, "--out", out
        what = f"{out.name}: GeoJSONSeq does not hold the system of coordinates EPSG:3857 (the collection)"
        self.assertEqual(told(*words), (1, f"polyover: {what}; --drop leaves it out, with a warning\n"))
        self.assertEqual(told(*words, "--drop")[0], 0)
        self.assertNotIn("crs", out.read_text())
        self.assertEqual(len(out.read_text().splitlines()), 3)

    def test_calls_take_no_more_than_the_region(self):
        area = with_members("Polygon", [square(0, 0, 4, 4)], name="a")
        with warnings.catch_warnings():
            warnings.simplefilter("error")
            self.assertEqual(polyover.Scaled(1).locate(area, [(1, 1)]), ["inside"])
