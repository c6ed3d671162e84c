"""Overlays that keep the features of both files: their pieces, and the properties of these."""

import random
import unittest
from unittest import mock

from polyover import calls

from .features import collection, feature, ran, square

PARCELS = collection(
    {**feature("Polygon", [square(0, 0, 2, 2)], owner="a", name="A"), "id": "p"},
    feature("Polygon", [square(2, 0, 4, 2)], name="B", since=1990),
    feature("Polygon", [square(90, 0, 91, 1)], name="C"),
    crs={"type": "name", "properties": {"name": "EPSG:3857"}},
)
ZONES = collection(
    {"type": "Feature", "properties": None, "geometry": {"type": "Polygon", "coordinates": [square(50, 50, 51, 51)]}},
    feature("Polygon", [square(1, -1, 3, 3)], name="Z", ground="wet"),
)
ONE, TWO, FAR = ({"owner": "a", "since": None}, {"owner": None, "since": 1990}, {"owner": None, "since": None})
NONE = {"owner": None, "name_1": None, "since": None}


def of_first(which, name):
    """The properties of a piece that is of a parcel, as those of both files begin."""
    return {**which, "name_1": name}


def of_second(name, ground):
    """The properties of a piece that is of a zone, as those of both files end."""
    return {"name_2": name, "ground": ground}


BOTH = [(2, {**of_first(ONE, "A"), **of_second("Z", "wet")}), (2, {**of_first(TWO, "B"), **of_second("Z", "wet")})]
FIRST = [(2, {**of_first(ONE, "A"), **of_second(None, None)}), (2, {**of_first(TWO, "B"), **of_second(None, None)}),
         (1, {**of_first(FAR, "C"), **of_second(None, None)})]
SECOND = [(1, {**NONE, **of_second(None, None)}), (4, {**NONE, **of_second("Z", "wet")})]
# of each rule the areas of the pieces, and their properties, as geopandas' overlay has them (subject is its identity)
RULES = {
    "intersect": BOTH,
    "union": BOTH + FIRST + SECOND,
    "xor": FIRST + SECOND,
    "subject": BOTH + FIRST,
    "clip": BOTH + SECOND,
    "difference": [(2, {**ONE, "name": "A"}), (2, {**TWO, "name": "B"}), (1, {**FAR, "name": "C"})],
    "inverse_difference": [(1, {"name": None, "ground": None}), (4, {"name": "Z", "ground": "wet"})],
}


def area(each):
    """The area of a feature."""
    rings = [ring for polygon in each["geometry"]["coordinates"] for ring in polygon]
    return sum(a[0] * b[1] - b[0] * a[1] for ring in rings for a, b in zip(ring, ring[1:])) / 2


def contours_of(each):
    """The rings of a feature of whole numbers as contours, outlines counterclockwise and holes clockwise."""
    return [[(round(x), round(y)) for x, y in ring[:-1]] for ring in each["geometry"]["coordinates"]]


def area_of(subject, clip, rule):
    """The area of an overlay."""
    contours = [contour for shape in calls.overlay(subject, clip, rule) for contour in shape]
    return sum(a[0] * b[1] - b[0] * a[1] for c in contours for a, b in zip(c, [*c[1:], c[0]])) / 2


def kept(first, second, rule, *words):
    """The features that an overlay of two files leaves."""
    status, left, said, _ = ran("overlay", first, second, words=["--rule", rule, "--keep", "both", *words])
    if (status, said) != (0, ""):
        raise AssertionError(said)
    return left


class Both(unittest.TestCase):
    """Pieces of both files."""

    def test_by_hand(self):
        for rule, pieces in RULES.items():
            left = kept(PARCELS, ZONES, rule)
            self.assertEqual([(area(each), each["properties"]) for each in left["features"]], pieces, rule)
            self.assertEqual((left["crs"], {*left}), (PARCELS["crs"], {"type", "crs", "features"}))
            self.assertFalse(any("id" in each for each in left["features"]))

    def test_ids(self):
        ids = {"intersect": [("p", 2), (2, 2)], "xor": [("p", None), (2, None), (3, None), (None, 1), (None, 2)]}
        for rule, told in ids.items():
            found = [each["properties"] for each in kept(PARCELS, ZONES, rule, "--id")["features"]]
            self.assertEqual([(each["id_1"], each["id_2"]) for each in found], told)
        found = kept(PARCELS, ZONES, "difference", "--id")["features"]
        self.assertEqual([each["properties"] for each in found][0], {**ONE, "name": "A", "id_1": "p"})
        self.assertNotIn("id_2", found[0]["properties"])

    def test_names_that_come_twice(self):
        first = collection(feature("Polygon", [square(0, 0, 2, 2)], name="A", name_1="B"))
        for words in (["--rule", "intersect", "--keep", "both"], ["--keep=both", "--rule", "union", "--id"]):
            status, left, said, _ = ran("overlay", first, ZONES, words=words)
            self.assertEqual((status, left), (1, None))
            self.assertIn("a.geojson and b.geojson: two properties of an answer have the name 'name_1'", said)
        self.assertEqual(len(kept(first, ZONES, "difference")["features"]), 1)
        taken = collection(feature("Polygon", [square(0, 0, 2, 2)], id_2=5))
        self.assertIn("the name 'id_2'", ran("overlay", taken, ZONES, words=["--keep", "both", "--id"])[2])

    def test_words(self):
        for words in (["--id"], ["--id", "--keep", "--rule", "intersect"]):
            self.assertIn("--id goes with --keep both", ran("overlay", PARCELS, ZONES, words=words)[2])
        expected = ran("overlay", PARCELS, ZONES, words=["--rule", "intersect", "--keep"])[1]
        self.assertEqual([each["properties"]["name"] for each in expected["features"]], ["A", "B"])
        self.assertEqual(expected["features"][0]["id"], "p")
        for words in (["--keep", "--rule", "intersect"], ["--keep=first", "--rule", "intersect"],
                      ["--keep", "first", "--rule", "intersect"]):
            self.assertEqual(ran("overlay", PARCELS, ZONES, words=words)[1], expected)
        with self.assertRaises(SystemExit) as ended:
            ran("overlay", PARCELS, ZONES, words=["--keep=all"])
        self.assertEqual(ended.exception.code, 2)

    def test_overlapping_features(self):
        # (the first file covers the square of 1 twice; each of its features is overlaid by itself)
        first = collection(*(feature("Polygon", [square(x, 0, x + 2, 1)], at=x + 1) for x in (0, 1)))
        second = collection(*(feature("Polygon", [square(1, 0, 2, 1)], on=on) for on in (1, 2)))
        found = [(area(each), *each["properties"].values()) for each in kept(first, second, "union")["features"]]
        self.assertEqual(found, [(1, 1, 1), (1, 1, 2), (1, 2, 1), (1, 2, 2), (1, 1, None), (1, 2, None)])
        for fill, count in ("evenodd", 6), ("nonzero", 6), ("negative", 0):
            self.assertEqual(len(kept(first, second, "union", "--fill", fill)["features"]), count)

    def test_smallest_area(self):
        found = kept(PARCELS, ZONES, "union", "--min-area", "2")["features"]
        self.assertEqual([area(each) for each in found], [2, 2, 2, 2, 4])

    def test_areas_add_up(self):
        chance = random.Random(9)

        def made(count):
            """Features of boxes on a grid, and frames round some."""
            things = []
            for at in range(count):
                (x, y), (wide, high) = ([chance.randint(*ends) for _ in range(2)] for ends in ((0, 900), (3, 90)))
                holes = [square(x + 1, y + 1, x + wide - 1, y + high - 1)[::-1]] if chance.random() < 0.3 else []
                things.append(feature("Polygon", [square(x, y, x + wide, y + high), *holes], at=at))
            return collection(*things)

        first, second = made(120), made(80)
        found = {tuple(each["properties"].values()): area(each) for each in kept(first, second, "union")["features"]}
        contours = [[contours_of(each) for each in its["features"]] for its in (first, second)]
        expected = {(one, two): area_of(contours[0][one], contours[1][two], "intersect")
                    for one in range(120) for two in range(80)}
        every = [[contour for its in layer for contour in its] for layer in contours]
        expected.update({(at, None): area_of(its, every[1], "difference") for at, its in enumerate(contours[0])})
        expected.update({(None, at): area_of(its, every[0], "difference") for at, its in enumerate(contours[1])})
        self.assertEqual(found, {key: each for key, each in expected.items() if each})

    def test_features_apart_are_not_asked(self):
        first = collection(*(feature("Polygon", [square(3 * x, 0, 3 * x + 1, 1)], at=x) for x in range(100)))
        counts = []

        def counted(subject, clip, *args, real=calls.overlay, **options):
            counts.append((sum(map(len, subject)), sum(map(len, clip))))
            return real(subject, clip, *args, **options)

        with mock.patch.object(calls, "overlay", counted):
            # (two places of a long box that meet two of these)
            found = kept(first, collection(feature("Polygon", [square(29, 0, 34, 1)], on=1)), "intersect")["features"]
        self.assertEqual([each["properties"] for each in found], [{"at": 10, "on": 1}, {"at": 11, "on": 1}])
        # (side by side in one call)
        self.assertEqual(counts, [(2 * 4, 2 * 4)])


if __name__ == "__main__":
    unittest.main()
