"""Features of answers as text: that of `json`, number by number."""

import json
import random
import unittest
import warnings

from polyover import BadInput, PolyoverWarning, geojson, writing
from polyover.scaled import Scaled

from .features import feature


def written(features, digits=7):
    """The text of a collection of features."""
    return writing.collection_text(features, digits, {"name": "a", "digits": 3})


def by_json(features):
    """The same by `json` alone."""
    return json.dumps(geojson.collection(features, name="a", digits=3)) + "\n"


class Written(unittest.TestCase):
    """What is written is what `json` writes."""

    def check(self, *features, digits=7):
        """That features have the text of `json`."""
        self.assertEqual(written(features, digits), by_json(features))

    def test_by_hand(self):
        path = [(0.0, -5.0), (0.0001, 1e-05), (1.5e-06, 179.9999999), (-0.1, 9999999.9999999), (1e7, 12345678.9)]
        texts = ["[0.0, -5.0]", "[0.0001, 1e-05]", "[1.5e-06, 179.9999999]", "[-0.1, 9999999.9999999]"]
        self.assertEqual(writing.lines_text([path[:4], path[4:]], (1e7, 1e9)),
                         f"[[{', '.join(texts)}], [[10000000.0, 12345678.9]]]")
        self.check(feature("MultiLineString", [path[:4], path[4:]], name="a"))

    def test_at_each_scale(self):
        chance = random.Random(11)
        for digits in (-250, *range(-3, 20), 250):
            scaled = Scaled.of_digits(digits)
            for _ in range(40):
                top = 10 ** chance.randint(1, 18)
                rows = [[chance.randint(-top, top) // top_of * top_of for top_of in (1, 1, 10**3, 1, 10**7, 1)]
                        for _ in range(2)]
                self.check(feature("MultiLineString", scaled.rows(rows)),
                           feature("MultiPolygon", [scaled.rows(rows), scaled.rows(rows[:1])]), digits=digits)

    def test_others_stay_as_they_are(self):
        one = feature("MultiLineString", [[(1.5, 2.5), (3.25, 4.0)]], at=[1, {"b": None}], text="\u00e9\"")
        self.check()
        null = {"type": "Feature", "properties": None, "geometry": None}
        self.check(one, null, feature("Point", (1, 2.123456789012)))
        self.assertEqual(writing.feature_text(one, 7), json.dumps(one))

    def test_units_that_floats_do_not_hold(self):
        for digits, most in ((0, 2.0**53 - 1), (3, 9007199254740.99), (-3, 9007199254740990000.0)):
            with warnings.catch_warnings():
                warnings.simplefilter("error")
                self.check(feature("MultiLineString", [[(0.0, -most), (most, 0.0)]]), digits=digits)
            for point in ((2.0**53 / 10.0**digits, 0.0), (0.0, -2 * most)):
                with self.assertWarnsRegex(PolyoverWarning, "coordinates of the answer 2\\^53 units"):
                    self.check(feature("MultiLineString", [[(0.0, 0.0), point]]), digits=digits)

    def test_numbers_that_json_does_not_hold(self):
        one = feature("MultiLineString", [[(0.0, 0.0), (1.0, 1.0)]], height=[1.5, {"top": float("inf")}])
        wanted = r"^feature 2 of the answer: .* finite numbers alone, and no inf as properties\.height\[1\]\.top$"
        with self.assertRaisesRegex(BadInput, wanted):
            written([feature("Point", (1, 2)), one])
        with self.assertRaisesRegex(BadInput, "no nan as id$"):
            writing.feature_text({**feature("Point", (1, 2)), "id": float("nan")}, 7)
        with self.assertRaisesRegex(BadInput, "no -inf as digits$"):
            writing.collection_text([], 7, {"digits": float("-inf")})

    def test_members_behind_properties(self):
        ring = [(0.5, 0.0), (1.0, 0.0), (0.0, 1.0), (0.5, 0.0)]
        self.check({"type": "Feature", "properties": None, "id": "null}}", "x": {"y": None},
                    "geometry": {"type": "MultiPolygon", "coordinates": [[ring], [ring[::-1]]]}})

    def test_many_with_such_members_as_geometries_have(self):
        ring = [(0.5, 0.0), (1.0, 0.0), (0.0, 1.0), (0.5, 0.0)]
        plain = [feature("MultiPolygon", [[ring]], at=at) for at in range(writing.AT_ONCE + 3)]
        self.check(*plain)
        null = {"type": "Feature", "properties": None, "geometry": None}
        text = feature("MultiLineString", [ring], text='"coordinates": null}}')
        for other in (feature("MultiPolygon", [], a={"b": {"coordinates": None}}), text, null):
            self.check(*plain[:3], other, *plain[3:])


if __name__ == "__main__":
    unittest.main()
