"""A geometry means the region that its polygons cover, in each call; lists of contours keep their meaning."""

import itertools
import unittest

import polyover
from polyover.contour import double_area
from polyover.text import FILLS

from .features import collection, feature, ran, square
from .there import ask_program_alone, with_library, with_program

try:
    from shapely import geometry
except ImportError:
    geometry = None

IN, ON, OUT = "inside", "boundary", "outside"
RINGS = [square(0, 0, 4, 4)], [square(2, 2, 6, 6)]
# two squares that share the one from (2, 2) to (4, 4), in each form
FEATURES = collection(*(feature("Polygon", rings) for rings in RINGS))
MANY = {"type": "MultiPolygon", "coordinates": list(RINGS)}
FORMS = [FEATURES, MANY, {"type": "GeometryCollection", "geometries": [MANY]}]
if geometry:
    FORMS.append(geometry.shape(MANY))
# two squares side by side
BESIDE = {"type": "MultiPolygon", "coordinates": [[square(0, 0, 4, 4)], [square(4, 0, 8, 4)]]}
PLACES = {(3, 3): IN, (1, 1): IN, (5, 5): IN, (2, 3): IN, (3, 2): IN, (2, 4): ON, (0, 0): ON, (4, 1): ON, (5, 1): OUT}


def area_of(shapes):
    """The area of shapes."""
    return sum(double_area(contour) for shape in shapes for contour in shape) / 2


class Regions(unittest.TestCase):
    """Polygons that overlap, or lie side by side."""

    def setUp(self):
        self.scaled = polyover.Scaled.of_digits(2)

    def test_locate(self):
        for form in FORMS:
            self.assertEqual(self.scaled.locate(form, list(PLACES)), list(PLACES.values()))
        self.assertEqual(self.scaled.locate(BESIDE, [(4, 1), (4, 0), (8, 1)]), [IN, ON, ON])

    def test_lists_are_joined_by_exclusive_or(self):
        contours = polyover.contours_of(MANY)
        self.assertEqual(self.scaled.locate(contours, [(3, 3), (1, 1), (2, 3)]), [OUT, IN, ON])
        self.assertEqual(polyover.locate(contours, [(3, 3), (1, 1), (2, 3)]), [OUT, IN, ON])
        self.assertEqual(area_of(self.scaled.overlay(contours, (), "subject", "evenodd")), 24)

    def test_shapes_under_each_fill_rule(self):
        far = [[(9, 9), (10, 10)]]
        for form, fill in itertools.product(FORMS, FILLS):
            # (in each answer outlines run counterclockwise)
            for shapes, parts in (
                (self.scaled.overlay(form, (), "subject", fill), 1),
                (self.scaled.overlay([], form, "clip", fill), 1),
                (self.scaled.overlay(form, form, "intersect", fill), 1),
                (self.scaled.hierarchy(form, form, "union", fill)[0], 1),
                (self.scaled.simplify(form, fill), 1),
                (self.scaled.slice(form, far, fill), 1),
                (self.scaled.slice(form, [[(3, -1), (3, 9)]], fill), 2),
                (self.scaled.tiles(form, 99, 99, fill), 1),
                (self.scaled.tiles(form, 3, 99, fill), 2),
            ):
                self.assertEqual((area_of(shapes), len(shapes)), (28, parts), fill)
        self.assertEqual(len(self.scaled.slice(BESIDE, far)), 1)

    def test_lines_edges_and_relations(self):
        inner = {"type": "Polygon", "coordinates": [square(1, 1, 5, 5)]}
        small = {"type": "Polygon", "coordinates": [square(2.5, 2.5, 3.5, 3.5)]}
        for form, fill in itertools.product(FORMS, FILLS):
            (path,) = self.scaled.clip(form, [[(-1, 3), (9, 3)]], fill)
            self.assertEqual(path, [(0, 3), (6, 3)])
            # (the outline has eight edges, each filled on one side)
            edges = self.scaled.edges(form, (), fill)
            self.assertEqual((len(edges), {sides for _, _, sides in edges} <= {1, 2}), (8, True))
            self.assertTrue(self.scaled.relate(small, form, fill)["within"])
            self.assertFalse(self.scaled.relate(inner, form, fill)["within"])

    def test_on_the_command_line(self):
        points = [feature("Point", list(point)) for point in PLACES]
        _, left, _, _ = ran("locate", FEATURES, collection(*points))
        self.assertEqual([each["properties"]["location"] for each in left["features"]], list(PLACES.values()))
        line = collection(feature("LineString", [[3, -1], [3, 9]]))
        (clipped,) = ran("clip", FEATURES, line)[1]["features"]
        self.assertEqual(clipped["geometry"]["coordinates"], [[[3, 0], [3, 6]]])
        both = collection(feature("MultiPolygon", list(RINGS)))
        self.assertEqual(len(ran("slice", both, line)[1]["features"]), 2)
        self.assertEqual(len(ran("tiles", both, words=["3", "99"])[1]["features"]), 2)


@with_library
class RegionsOfPrepared(unittest.TestCase):
    """Prepared shapes."""

    def test_prepared(self):
        for form, fill in itertools.product(FORMS, FILLS):
            with polyover.Scaled(10).prepared(form, fill) as shape:
                self.assertEqual(shape.locate(list(PLACES)), list(PLACES.values()))
                self.assertEqual(shape.contains(list(PLACES)), [place == IN for place in PLACES.values()])


@with_program
class RegionsOfTheProgram(Regions):
    """The same, where the program is asked."""

    def setUp(self):
        super().setUp()
        ask_program_alone(self)


@with_library
class Solvers(unittest.TestCase):
    """Polygons that cross themselves, and the solver."""

    def test_a_polygon_that_crosses_itself_is_split_by_the_solver_that_is_asked(self):
        # (two steps cross at (1/3, 0), in the pixel of (0, 0). The first step passes through that, and meets none of
        # the two there: snap rounding leads it through (0, 0), rounds leave it straight from (-1, 0) on)
        ring = [(-4, -1), (8, 3), (10, 3), (10, 0), (-10, 0), (-10, -5), (12, -5), (12, 2), (7, 2), (-3, -1)]
        polygon, scaled = {"type": "Polygon", "coordinates": [[*ring, ring[0]]]}, polyover.Scaled(1)
        straight, bent = ((-1, 0), (8, 3)), ((0, 0), (8, 3))
        for solver, edge, other in (("rounds", straight, bent), ("snapped", bent, straight)):
            how = {"solver": solver}
            for edges in (scaled.edges(polygon, **how), scaled.edges([], polygon, **how)):
                found = [(a, b) for a, b, _ in edges]
                self.assertIn(edge, found)
                self.assertNotIn(other, found)
            shapes = scaled.overlay(polygon, (), "subject", **how)
            self.assertEqual(shapes, polyover.overlay([ring], (), "subject", **how))
            self.assertEqual(scaled.arrangement(polygon, **how).overlay("subject"), shapes)


class Points(unittest.TestCase):
    """Points may be a geometry."""

    PLACES = [[2, 2], [4, 1], [9, 9]]
    FORMS = [
        {"type": "MultiPoint", "coordinates": PLACES},
        collection(feature("Point", PLACES[0]), feature("MultiPoint", PLACES[1:])),
        {"type": "GeometryCollection", "geometries": [feature("Point", each)["geometry"] for each in PLACES]},
    ]
    CONTOURS = [[(0, 0), (4, 0), (4, 4), (0, 4)]]

    def test_locate(self):
        for form in self.FORMS + ([geometry.shape(self.FORMS[0])] if geometry else []):
            self.assertEqual(polyover.Scaled(10).locate(self.CONTOURS, form), [IN, ON, OUT])
            self.assertEqual(polyover.locate(self.CONTOURS, form), [IN, ON, OUT])

    @with_library
    def test_prepared(self):
        for owner in (polyover.Prepared, polyover.Scaled(10).prepared):
            with owner(self.CONTOURS) as shape:
                for form in self.FORMS + ([geometry.shape(self.FORMS[0])] if geometry else []):
                    self.assertEqual(shape.contains(form), [True, False, False])
                    self.assertEqual(shape.locate(form), [IN, ON, OUT])

    def test_no_points(self):
        empty = {"type": "MultiPoint", "coordinates": []}
        self.assertEqual(polyover.Scaled(10).locate(self.CONTOURS, empty), [])

    def test_heights_are_left_out_with_a_warning(self):
        high = {"type": "MultiPoint", "coordinates": [[2, 2, 7], [4, 1], [9, 9, 7]]}
        told = r"^members of 2 points beyond x and y are left out \(the first: feature 1, point 1\)$"
        with self.assertWarnsRegex(polyover.PolyoverWarning, told):
            self.assertEqual(polyover.Scaled(10).locate(self.CONTOURS, high), [IN, ON, OUT])

    def test_faults(self):
        scaled = polyover.Scaled(10)
        for thing, told in (
            (FEATURES, "feature 1: Polygon in the place of Point or MultiPoint"),
            ({"type": "Point", "coordinates": [1, None]}, "feature 1, point 1, point 1: .1, None. is no point"),
            ({"type": "Point"}, "feature 1: no member coordinates"),
            ({"type": "Point", "coordinates": [1e300, 0]}, "points, point 1: .* out of range"),
        ):
            with self.subTest(told), self.assertRaisesRegex(polyover.BadInput, told):
                scaled.locate(self.CONTOURS, thing)
        with self.assertRaisesRegex(polyover.BadInput, "points, point 1: 0.5 is no whole number: Scaled takes floats"):
            polyover.locate(self.CONTOURS, {"type": "Point", "coordinates": [0.5, 0]})


if __name__ == "__main__":
    unittest.main()
