"""Files of GeoJSON in and out, and the commands over them."""

import contextlib
import io
import json
import tempfile
import unittest
from pathlib import Path

import polyover
from polyover.contour import double_area
from polyover.__main__ import main

from .features import collection, feature, square


class Geometries(unittest.TestCase):
    """What is read and written."""

    def test_rings_either_way(self):
        polygon = {"type": "Polygon", "coordinates": [square(0, 0, 9, 9)[::-1], square(1, 1, 2, 2)]}
        contours = polyover.contours_of(polygon)
        self.assertEqual([double_area(each) for each in contours], [162, -2])

    def test_interface_there_and_back(self):
        shapes = polyover.overlay([[(0, 0), (9, 0), (9, 9), (0, 9)], [(1, 1), (1, 2), (2, 2), (2, 1)]])
        again = polyover.overlay(polyover.contours_of(shapes))
        self.assertEqual(again, shapes)
        paths = polyover.clip([[(0, 0), (9, 0), (9, 9), (0, 9)]], [[(-1, 3), (10, 3)]])
        self.assertEqual(polyover.lines_of(paths), [[(0, 3), (9, 3)]])

    def test_faults_name_the_feature(self):
        good, short = feature("Polygon", [square(0, 0, 1, 1)]), feature("Polygon", [[[0, 0], [1, 1]]])
        with self.assertRaisesRegex(polyover.BadInput, "feature 2, polygon 1, ring 1: 2 points: a ring takes"):
            polyover.contours_of(collection(good, short))
        with self.assertRaisesRegex(polyover.BadInput, "feature 1: Point in the place of Polygon or MultiPolygon"):
            polyover.contours_of(collection(feature("Point", [0, 0])))
        with self.assertRaisesRegex(polyover.BadInput, "3 is no geometry"):
            polyover.contours_of(3)


class Commands(unittest.TestCase):
    """Each command on files."""

    def ran(self, command, subject, other, *words):
        """What a command writes on two collections."""
        with tempfile.TemporaryDirectory() as name:
            files = [Path(name, each) for each in ("a.geojson", "b.geojson", "c.geojson", "c.svg")]
            for file, given in zip(files, (subject, other)):
                file.write_text(json.dumps(given))
            picture = [] if command == "relate" else ["--svg", str(files[3])]
            status = main([command, str(files[0]), str(files[1]), "--out", str(files[2]), *picture, *words])
            self.assertEqual(status, 0)
            if picture:
                self.assertIn("<svg", files[3].read_text())
            return json.loads(files[2].read_text())

    def test_overlay(self):
        one = collection(feature("Polygon", [square(0, 0, 2, 2)]))
        two = collection(feature("MultiPolygon", [[square(1, 1, 3, 3)]]))
        found = self.ran("overlay", one, two, "--rule", "intersect", "--digits", "1")
        rings = [[[1.0, 2.0], [1.0, 1.0], [2.0, 1.0], [2.0, 2.0], [1.0, 2.0]]]
        self.assertEqual(found["features"][0]["geometry"], {"type": "MultiPolygon", "coordinates": [rings]})

    def test_relate(self):
        one, two = (collection(feature("Polygon", [square(0, 0, size, size)])) for size in (2, 3))
        self.assertTrue(self.ran("relate", one, two)["within"])

    def test_clip_keeps_properties(self):
        area = collection(feature("Polygon", [square(0, 0, 2, 2)]))
        named, other = feature("LineString", [[-1, 1], [3, 1]], name="east"), feature("LineString", [[1, 3], [1, 1]])
        roads = collection(named, other)
        found = self.ran("clip", area, roads)["features"]
        self.assertEqual([each["properties"] for each in found], [{"name": "east"}, {}])
        self.assertEqual(found[0]["geometry"]["coordinates"], [[[0.0, 1.0], [2.0, 1.0]]])

    def test_slice_keeps_properties(self):
        owned, other = feature("Polygon", [square(0, 0, 2, 2)], owner="one"), feature("Polygon", [square(5, 0, 6, 1)])
        line = feature("LineString", [[1, -1], [1, 3]])
        found = self.ran("slice", collection(owned, other), collection(line))["features"]
        self.assertEqual([each["properties"] for each in found], [{"owner": "one"}, {"owner": "one"}, {}])

    def test_fault(self):
        said = io.StringIO()
        with contextlib.redirect_stderr(said):
            self.assertEqual(main(["relate", "/nowhere.geojson", "/nowhere.geojson"]), 1)
        self.assertIn("/nowhere.geojson", said.getvalue())
