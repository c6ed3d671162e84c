"""The world's land and its lakes (GSHHS shapes), compared with GEOS; skipped where they or shapely are not there."""

import unittest
import warnings
from pathlib import Path

import polyover

try:
    import shapefile
    from shapely.geometry import MultiLineString, MultiPolygon, Polygon, shape as shapely_shape
    from shapely.ops import unary_union
except ImportError:
    shapefile = None

DATA = Path("/usr/share/cartopy/data/shapefiles/gshhs")
LAND, LAKES = DATA / "c" / "GSHHS_c_L1.shp", DATA / "l" / "GSHHS_l_L2.shp"
IS_THERE = shapefile is not None and LAND.is_file() and LAKES.is_file()
DIGITS = 7
UNIT = 10**-DIGITS
# (rounds that moved a point at most; each moves an edge by half a unit in x and y)
ROUNDS = 4


def features_of(file):
    """What a file of shapes has, as GeoJSON."""
    shapefile.VERBOSE = False
    with shapefile.Reader(str(file)) as shapes:
        features = [{"type": "Feature", "geometry": each.__geo_interface__} for each in shapes.iterShapes()]
    return {"type": "FeatureCollection", "features": features}


def region_of(features):
    """What they cover, by GEOS."""
    return unary_union([shapely_shape(each["geometry"]).buffer(0) for each in features["features"]])


@unittest.skipUnless(IS_THERE, "no map here (Debian's python3-cartopy, python3-pyshp and python3-shapely)")
class Map(unittest.TestCase):
    """Each answer differs from that of GEOS by what rounding allows: half a unit for each round along the edges."""

    @classmethod
    def setUpClass(cls):
        cls.scaled = polyover.Scaled.of_digits(DIGITS)
        cls.land, cls.lakes = features_of(LAND), features_of(LAKES)
        cls.land_region, cls.lake_region = region_of(cls.land), region_of(cls.lakes)
        cls.lost = ROUNDS * UNIT * (cls.land_region.length + cls.lake_region.length)

    def test_overlays(self):
        rules = {"difference": "difference", "intersect": "intersection", "union": "union"}
        for rule, by_geos in {**rules, "xor": "symmetric_difference"}.items():
            with warnings.catch_warnings(record=True) as told:
                warnings.simplefilter("always")
                shapes = self.scaled.overlay(self.land, self.lakes, rule)
            expected = getattr(self.land_region, by_geos)(self.lake_region)
            found = MultiPolygon([Polygon(shape[0], shape[1:]) for shape in shapes])
            self.assertEqual([str(each.message) for each in told], [])
            self.assertTrue(found.is_valid, rule)
            self.assertLessEqual(abs(found.area - expected.area), self.lost, rule)
            self.assertLessEqual(found.symmetric_difference(expected).area, self.lost, rule)

    def test_shorelines(self):
        rings = [part.exterior for part in self.lake_region.geoms] + [part.exterior for part in self.land_region.geoms]
        band = {"type": "Polygon", "coordinates": [[[-150, -61], [130, -47], [155, 71], [-170, 62]]]}
        lines = {"type": "MultiLineString", "coordinates": [[list(point) for point in ring.coords] for ring in rings]}
        paths = self.scaled.clip(band, lines)
        inside = Polygon(band["coordinates"][0]).intersection(MultiLineString([ring.coords for ring in rings]))
        # (each end, and each point of a line, is moved by less than two units)
        count = sum(map(len, paths))
        self.assertLessEqual(abs(MultiLineString(list(paths)).length - inside.length), 4 * UNIT * count)

    def test_relations_of_lakes(self):
        land = self.land["features"][0]
        region = shapely_shape(land["geometry"]).buffer(0)
        for each in self.lakes["features"][:60]:
            lake = shapely_shape(each["geometry"])
            if lake.is_valid:
                told = self.scaled.relate(each, land)
                self.assertEqual((told["within"], told["disjoint"]), (lake.within(region), lake.disjoint(region)))


if __name__ == "__main__":
    unittest.main()
