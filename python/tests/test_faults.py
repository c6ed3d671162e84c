"""What is no geometry and no list of points: each a fault that names what and where."""

import unittest
import warnings

import polyover

from .features import collection, feature, ran, square
from .rows import SQUARE

try:
    import numpy
except ImportError:
    numpy = None

GOOD = feature("Polygon", [square(0, 0, 1, 1)])
FAULTS = (
    ({"type": "FeatureCollection", "features": None}, "features: null in the place of a list"),
    ({"type": "FeatureCollection"}, "features: null"),
    (collection(GOOD, 5), "feature 2: 5 is no feature"),
    (collection(None), "feature 1: null is no feature"),
    (collection(GOOD, "x"), "feature 2: 'x' is no feature"),
    (collection(feature("Polygon", 5)), "feature 1: coordinates: 5 in the place of a list"),
    (collection(feature("Polygon", None)), "feature 1: coordinates: null"),
    (collection(feature("Polygon", square(0, 0, 1, 1))), "feature 1, polygon 1, ring 1, point 1: 0 is no point"),
    (collection(feature("MultiPolygon", [square(0, 0, 1, 1)])), "polygon 1, ring 1, point 1: 0 is no point"),
    (collection(feature("Polygon", [square(0, 0, 1, None)])), "feature 1, polygon 1, ring 1, point 3: .1, None. is no"),
    (collection(feature("Polygon", [square(0, 0, 1, "1")])), "point 3: .1, '1'. is no point"),
    (collection(feature("Polygon", [square(0, 0, 1, True)])), "point 3: .1, True. is no point"),
    (collection(feature("Polygon", [square(0, 0, 1, float("nan"))])), "point 3: .1, nan. is no point"),
    (collection(feature("Polygon", [[[0, 0], [1], [1, 1]]])), "point 2: .1. is no point"),
    (collection(feature("Polygone", [])), "feature 1: 'Polygone' in the place of Polygon or MultiPolygon"),
    (collection({"type": "Feature", "properties": {}}), "feature 1: no member geometry"),
    (collection({"type": "Feature", "geometry": 3}), "feature 1: 3 is no geometry"),
    (collection({"type": "Feature", "geometry": {"coordinates": []}}), "feature 1: no member type"),
    (collection({"type": "Feature", "geometry": {"type": ["Polygon"]}}), "feature 1: type: .* is no text"),
    (collection({**GOOD, "properties": [1]}), "feature 1: properties: .1. is no object"),
    ({"type": "GeometryCollection", "geometries": 4}, "feature 1: geometries: 4 in the place of a list"),
    ({"type": "GeometryCollection", "geometries": [{"type": "Polygon"}]}, "feature 1, geometry 1: no member coord"),
    ({"type": None}, "feature 1: type: null is no text"),
    (5, "5 is no geometry"),
    (None, "null is no geometry"),
    ([], r"\[\] is no geometry"),
)
LISTS = (
    (5, "subject: 5 in the place of a list of contours"),
    (None, "subject: None in the place of a list"),
    (SQUARE, "subject: contour 1, point 1: 0 is no point"),
    ([None], "subject: contour 1: None in the place of a list of points"),
    ([SQUARE, [(0, 0), None]], "subject: contour 2, point 2: None is no point"),
    ([[(0, 0, 0)]], r"subject: contour 1, point 1: \(0, 0, 0\) is no point of two members"),
    ([[(0,)]], r"subject: contour 1, point 1: \(0,\) is no point"),
    ([SQUARE, [(0, 0), (1, None)]], "subject: contour 2, point 2: None is no whole number"),
    ([[(0.5, 0)]], "subject: contour 1, point 1: 0.5 is no whole number: Scaled takes floats"),
    ([[(2**62, 0)]], "subject: contour 1, point 1: 4611686018427387904 is out of range"),
    ("ab", "subject: str in the place of a list"),
)


class Faults(unittest.TestCase):
    """Each is a BadInput."""

    def test_geojson(self):
        for thing, told in FAULTS:
            with self.subTest(told), self.assertRaisesRegex(polyover.BadInput, told):
                polyover.contours_of(thing)
            with self.subTest(told), self.assertRaisesRegex(polyover.BadInput, told):
                polyover.Scaled.of_digits(2).contours_of(thing)

    def test_lists(self):
        for given, told in LISTS:
            with self.subTest(told), self.assertRaisesRegex(polyover.BadInput, told):
                polyover.overlay(given)
            with self.subTest(told), self.assertRaisesRegex(polyover.BadInput, told.replace("subject", "shape")):
                polyover.is_resolved(given)

    def test_points_and_lines(self):
        with self.assertRaisesRegex(polyover.BadInput, "points, point 2: 7 is no point"):
            polyover.locate([SQUARE], [(0, 0), 7])
        with self.assertRaisesRegex(polyover.BadInput, "lines: line 1, point 1: 0 is no point"):
            polyover.clip([SQUARE], [(0, 0), (1, 1)])
        with self.assertRaisesRegex(polyover.BadInput, "clip: contour 1, point 1: 0.5 is no whole number"):
            polyover.relate([SQUARE], [[(0.5, 0)]])

    def test_floats(self):
        scaled = polyover.Scaled(1)
        with self.assertRaisesRegex(polyover.BadInput, "subject: contour 1, point 2: .* finite"):
            scaled.overlay([[(0, 0), (float("inf"), 1), (1, 1)]])
        with self.assertRaisesRegex(polyover.BadInput, "subject: 5 in the place of a list"):
            scaled.overlay(5)
        for scale in (None, "x", float("nan"), float("inf"), 0):
            with self.assertRaises(polyover.BadInput):
                polyover.Scaled(scale)

    def test_out_of_range_at_a_scale(self):
        things = collection(GOOD, feature("MultiPolygon", [[square(0, 0, 1, 1), [[0, 0], [1, 0], [1e9, 1e9]]]]))
        told = r"feature 2, polygon 1, ring 2, point 3: \(.*\) at this scale is out of range"
        with self.assertRaisesRegex(polyover.BadInput, told):
            polyover.Scaled.of_digits(12).overlay(things)
        status, left, said, _ = ran("overlay", GOOD, things, words=["--digits", "12"])
        self.assertEqual((status, left), (1, None))
        self.assertRegex(said, f"b.geojson: {told}")
        line = {"type": "LineString", "coordinates": [[0, 0], [1e9, 1e9]]}
        with self.assertRaisesRegex(polyover.BadInput, "feature 1, line 1, point 2: .* out of range"):
            polyover.Scaled.of_digits(12).clip(GOOD, line)

    def test_ends_of_the_range_of_floats(self):
        with self.assertRaisesRegex(polyover.BadInput, "out of range"):
            polyover.Scaled(2**60).overlay([[(0, 0), (1e9, 1), (1, 1)]])

    @unittest.skipIf(numpy is None, "no python3 here has NumPy (Debian's python3-numpy)")
    def test_numbers_of_numpy(self):
        ring = [[numpy.float32(each) for each in point] for point in square(0, 0, 2, 2)]
        self.assertEqual(polyover.contours_of({"type": "Polygon", "coordinates": [ring]}), [[*map(tuple, ring[:4])]])
        self.assertEqual(len(polyover.Scaled(1).overlay([ring])), 1)
        self.assertEqual(len(polyover.overlay([numpy.array(square(0, 0, 2, 2), "int64")])), 1)
        with self.assertRaisesRegex(polyover.BadInput, "subject: contour 1, point 1: .* is no whole number"):
            polyover.overlay([ring])


class Said(unittest.TestCase):
    """What is left out is said once."""

    def test_heights_are_left_out_with_a_warning(self):
        ring = [[*point, 7] for point in square(0, 0, 1, 1)]
        with warnings.catch_warnings(record=True) as told:
            warnings.simplefilter("always")
            contours = polyover.contours_of({"type": "MultiPolygon", "coordinates": [[ring], [ring]]})
            polyover.Scaled(1).overlay([ring[:4]])
        self.assertEqual(contours[0], [(0, 0), (1, 0), (1, 1), (0, 1)])
        self.assertEqual([str(each.message) for each in told], [
            "members of 8 points beyond x and y are left out (the first: feature 1, polygon 1, ring 1)",
            "members of 4 points beyond x and y are left out (the first: subject: contour 1, point 1)",
        ])

    def test_heights_on_the_command_line(self):
        ring = [[*point, 7] for point in square(0, 0, 1, 1)]
        _, left, said, _ = ran("overlay", collection(feature("Polygon", [ring])), collection(GOOD))
        self.assertEqual(said.count("beyond x and y"), 1)
        self.assertEqual(len(left["features"]), 1)

    def test_null_geometries(self):
        empty = {"type": "Feature", "properties": {"name": "none"}, "geometry": None, "id": 4}
        area = collection(feature("Polygon", [square(0, 0, 2, 2)]))
        _, left, said, _ = ran("clip", area, collection(feature("LineString", [[-1, 1], [1, 1]]), empty))
        self.assertEqual((left["features"][1], said), (empty, ""))
        _, left, said, _ = ran("slice", collection(GOOD, empty), collection(feature("LineString", [[-1, 1], [1, 1]])))
        self.assertEqual((left["features"][1], said), (empty, ""))
        _, left, said, _ = ran("overlay", collection(GOOD, empty), collection(GOOD))
        self.assertEqual(said.count("1 feature without a geometry is left out (the first: feature 2)"), 1)

    def test_geometries_of_other_kinds(self):
        mixed = {"type": "GeometryCollection", "geometries": [
            {"type": "Point", "coordinates": [0, 0]},
            {"type": "GeometryCollection", "geometries": [{"type": "Polygon", "coordinates": [square(0, 0, 1, 1)]}]},
        ]}
        with warnings.catch_warnings(record=True) as told:
            warnings.simplefilter("always")
            self.assertEqual(polyover.contours_of(mixed), [[(0, 0), (1, 0), (1, 1), (0, 1)]])
        self.assertEqual([str(each.message) for each in told], [
            "1 geometry that is no Polygon or MultiPolygon is passed over (the first: feature 1, geometry 1)",
        ])
        with self.assertRaisesRegex(polyover.BadInput, "feature 1: LineString in the place of Polygon"):
            polyover.contours_of({"type": "LineString", "coordinates": [[0, 0], [1, 1]]})


if __name__ == "__main__":
    unittest.main()
