"""What the page opens and saves: GeoJSON, the program's text, pictures, links; and the calls that it writes."""

import ast
import json
import shutil
import subprocess
import sys
import tempfile
import unittest
import warnings
from pathlib import Path
from xml.etree import ElementTree

import polyover
from polyover.commands import printed

from .page import DRAWN, EXAMPLES, ROOT, browser
from .test_answers import HAS_SOLVER

INCLUDE, LIBRARY = ROOT / "include", ROOT / "out" / "libpolyover.a"


# what runs texts of Python, one behind the other
RUNNING = "import json, sys\nfor text in json.load(sys.stdin):\n    exec(text, {})"


# where features are looked at
POINTS = [[3, 3], [1, 1], [5, 5], [7, 7], [9, 9], [2, 1], [4, 2], [2, 4], [6, 3]]


# 200,000 squares of side 2, in columns of 3
MANY = """() => {
    const coordinates = Array.from({ length: 200_000 }, (_, at) => {
        const [x, y] = [3 * (at % 500), 3 * Math.floor(at / 500)];
        return [[[x, y], [x + 2, y], [x + 2, y + 2], [x, y + 2], [x, y]]];
    });
    return JSON.stringify({ type: "MultiPolygon", coordinates });
}"""


def square(x, y, side):
    """The ring of a square, by its lower left corner."""
    return [[x, y], [x + side, y], [x + side, y + side], [x, y + side], [x, y]]


def polygon(number):
    """The text of two features, with some text in the place of a coordinate of the second."""
    ring = f"[[0, 0], [4, 0], [{number}, 4], [0, 0]]"
    features = [
        f'{{"type": "Feature", "properties": {{}}, "geometry": {each}}}'
        for each in ("null", f'{{"type": "Polygon", "coordinates": [{ring}]}}')
    ]
    return f'{{"type": "FeatureCollection", "features": [{", ".join(features)}]}}'


def as_lists(value):
    """A value of lists in the place of tuples."""
    return [as_lists(each) for each in value] if isinstance(value, (list, tuple)) else value


def answered(answer):
    """An answer of the page as Python gives it."""
    if "links" in answer:
        return [answer["shapes"], answer["links"]]
    return answer[answer["kind"]]


class Files(unittest.TestCase):
    """Each drawing comes back as it was."""

    def setUp(self):
        self.page = browser()
        self.page.size()
        self.page.open(DRAWN)
        self.figures = self.page.figures()

    def test_text(self):
        text = self.page.saved("text")
        self.assertEqual(text.splitlines()[-1], "run overlay Union NonZero ogc")
        printed(text)
        self.page.press("#clear")
        self.page.give("drawing.txt", text)
        self.assertEqual(self.page.figures(), self.figures)

    def test_geojson(self):
        for digits in (0, 3):
            self.page.choose("digits", str(digits))
            text = self.page.saved("geojson")
            self.assertEqual(json.loads(text)["type"], "FeatureCollection")
            self.page.press("#clear")
            self.page.give("drawing.geojson", text)
            self.assertEqual(self.page.figures(), self.figures)

    def test_geojson_of_others(self):
        rings = [[[0.5, 0], [0.5, 3.25], [4, 3], [4, 0], [0.5, 0]], [[1, 1], [1, 2], [2, 2], [2, 1], [1, 1]]]
        geometry = {"type": "Polygon", "coordinates": rings}
        self.page.give("others.geojson", json.dumps(geometry))
        outline, hole = [[400, 0], [400, 300], [50, 325], [50, 0]], [[100, 100], [100, 200], [200, 200], [200, 100]]
        self.assertEqual(self.page.figures()["subject"], [outline, hole])
        self.assertEqual(self.page.run("return polyover.state.drawing.digits"), 2)

    def test_each_number_of_digits(self):
        """A drawing comes back exactly, with its digits and what is asked, also at the end of the range."""
        most = 2**53 - 1
        far = f"{most}+{-most}+{most - 1}+{most}+{-most}+1"
        for digits in range(16):
            link = f"#subject=0+0+7+1+3+9&subject={far}&line=5+5+-1234567890123456+7&point=1+-1&run=edges+EvenOdd"
            self.page.open(f"{link}&solver=rounds&digits={digits}")
            before = self.page.run("return polyover.state.drawing")
            text = self.page.saved("geojson")
            self.assertEqual(len(json.loads(text)["features"]), 4)
            self.page.open(DRAWN)
            self.page.give("drawing.geojson", text)
            self.assertEqual(self.page.run("return polyover.state.drawing"), before, digits)

    def test_each_question_comes_back(self):
        for question in (
            "run=overlay+Xor+EvenOdd+ogc+clockwise+keep+min+3",
            "run=locate",
            "run=locate&fill=negative",
            "run=clip+Positive+invert+boundary",
            "run=simplify+Negative",
            "run=tiles+NonZero+3+2&solver=rounds",
            "run=relate+EvenOdd",
            "run=relate+NonZero&solver=snapped",
            "run=relate+Positive&solver=rounds",
        ):
            self.page.open(f"#subject=0+0+7+1+3+9&point=1+1&{question}")
            before = self.page.run("return [polyover.state.drawing, polyover.state.answer.kind]")
            text = self.page.saved("geojson")
            self.page.press("#link")
            self.page.until("return location.hash.length > 1")
            link = self.page.run("return location.hash")
            for again in (lambda: self.page.give("drawing.geojson", text), lambda: self.page.open(link)):
                self.page.open(DRAWN)
                again()
                self.assertEqual(self.page.run("return [polyover.state.drawing, polyover.state.answer.kind]"), before)

    def test_short_paths_come_back(self):
        for part in ("subject=1+2", "subject=1+2+1+2", "clip=1+2+3+4", "line=1+2", "subject=0+0+4+0+0+4+0+0"):
            self.page.open(f"#{part}&run=edges+NonZero")
            before, text = self.page.figures(), self.page.saved("geojson")
            self.page.open(DRAWN)
            self.page.give("drawing.geojson", text)
            self.assertEqual(self.page.figures(), before)

    def test_answer_and_picture(self):
        answer = json.loads(self.page.saved("answer"))
        self.assertEqual([each["geometry"]["type"] for each in answer["features"]], ["Polygon"])
        picture = ElementTree.fromstring(self.page.saved("svg"))
        words = [each.text for each in picture.iter() if each.tag.endswith("text")]
        self.assertIn("run overlay Union NonZero ogc", " ".join(words))
        self.assertEqual(words[-5:], ["subject", "clip", "line", "answer", "point"])

    def test_marks_are_told_apart_without_colours(self):
        """In a picture that is saved: points by their shapes, edges by dashes, ticks by feet."""

        def drawn(name, colour):
            picture = ElementTree.fromstring(self.page.saved("svg"))
            found = [each for each in picture.iter() if colour in (each.get("fill"), each.get("stroke"))]
            return [each for each in found if each.tag.endswith(f"}}{name}")]

        self.page.choose("command", "locate")
        self.page.choose("fill", "evenodd")
        self.assertEqual(self.page.answer()["locations"], ["inside", "outside", "boundary"])
        # (each once in the picture, and once in its legend)
        for name, colour in (("circle", "#2e8b57"), ("rect", "#c9a227"), ("path", "#b03a3a")):
            self.assertEqual(len(drawn(name, colour)), 2, name)
        self.page.choose("command", "edges")
        self.page.choose("snapping", "both")
        self.assertEqual({each.get("stroke-dasharray") for each in drawn("path", "#444444")}, {None})
        self.assertNotIn(None, {each.get("stroke-dasharray") for each in drawn("path", "#c02d78")})
        for colour, lines in (("#3b6fb6", 1), ("#d9822b", 2)):
            ticks = [each for each in drawn("path", colour) if each.get("stroke-width") == "2.4"]
            self.assertEqual({each.get("d").count("M") for each in ticks}, {lines}, colour)
        self.page.choose("snapping", "after")

    def test_bad_files_are_told(self):
        for name, text, said in (
            ("bad.txt", "subject 1 2 3\nrun edges NonZero\n", "line 1: an odd count of numbers"),
            ("bad.txt", "run fly\n", "line 1: fly is no command here"),
            ("bad.txt", "run overlay Union NonZero ogc min 1 ogc\n", "line 1: ogc comes twice"),
            ("bad.txt", "run overlay Union NonZero min 1 min 2\n", "line 1: min comes twice"),
            ("bad.txt", "run overlay Union NonZero min -1\n", "line 1: min takes a whole number from 0 on"),
            ("bad.txt", "subject 1 9999999999999999999\n", "line 1: 9999999999999999999 is beyond"),
            ("bad.geojson", "{", "no JSON"),
            ("bad.geojson", '{"type": "Circle"}', 'feature 1: "Circle" is no geometry'),
            ("bad.geojson", "[]", "feature 1: [] is no geometry"),
            ("bad.geojson", "null", "feature 1: null is no geometry"),
            ("bad.geojson", polygon('"0"'), "feature 2, polygon 1, ring 1, point 3: "),
            ("bad.geojson", polygon("null"), "point 3: [null,4] is no point of two finite numbers"),
            ("bad.geojson", polygon("[1, 2]"), "point 3: [[1,2],4] is no point of two finite numbers"),
            ("bad.geojson", polygon("true"), "point 3: [true,4] is no point of two finite numbers"),
            ("bad.geojson", polygon("1e999"), "point 3: [Infinity,4] is no point of two finite numbers"),
            ("bad.geojson", polygon("1e300"), "feature 2, polygon 1, ring 1, point 3: 1e+300 is out of range"),
            ("bad.geojson", polygon("4").replace("[[[", "[[3, ["), "ring 1, point 1: 3 is no point of two"),
            ("bad.geojson", '{"type": "Polygon", "coordinates": [3]}', "feature 1, polygon 1, ring 1: 3 in the place"),
            ("bad.geojson", polygon("4").replace(", [4, 0]", ""), "ring 1: 2 points: a ring takes at least three"),
            ("bad.geojson", '{"type": "Point", "coordinates": null}', "feature 1: coordinates: null in the place of"),
            ("bad.geojson", '{"type": "LineString", "coordinates": [[1, 2]]}', "feature 1, line 1: 1 points: a line"),
            ("bad.geojson", '{"type": "MultiPoint", "coordinates": [[1, 2], [3]]}', "feature 1, point 2: [3] is no"),
            ("bad.geojson", '{"type": "FeatureCollection"}', "features: nothing in the place of a list"),
            ("bad.geojson", '{"type": "Point", "type": "Polygon"}', 'the member "type" comes twice in one object'),
        ):
            self.page.open(DRAWN)
            self.page.give(name, text)
            self.assertIn(f"{name}: ", self.page.text("notice"))
            self.assertIn(said, self.page.text("notice"))
            self.assertEqual(self.page.figures(), self.figures)

    def test_link(self):
        for name in EXAMPLES:
            self.page.example(name)
            self.page.press("#link")
            self.page.until("return location.hash.length > 1")
            before = self.page.run("return [polyover.state.figures, polyover.state.asked, location.hash]")
            self.page.press("#clear")
            self.page.open(before[2])
            self.assertEqual(self.page.run("return [polyover.state.figures, polyover.state.asked]"), before[:2])

    def test_broken_links_are_told(self):
        for link, said in (
            ("#subject=1+x&run=edges+NonZero", "x is no whole number"),
            ("#subject=0+0+4+0+4+4", "it has no command: it may be cut short"),
            ("#subject=0+0+4+0+4+4&run=overlay+Uni", "an unknown rule rule"),
            ("#drawing", "drawing is no part of a drawing"),
            ("#run=locate&shape=1+1", "shape is no part of a drawing"),
            ("#run=tiles+NonZero+3", "a cell has a width and a height, of at least 1"),
            ("#run=tiles+NonZero+3+2+ogc", "ogc is no option here"),
            ("#run=edges+NonZero&digits=16", "16 is no number of digits"),
            ("#run=edges+NonZero&solver=exact", "exact is no solver here"),
            ("#run=edges+NonZero&fill=positive", "positive is no fill rule here"),
            ("#run=locate&solver=rounds", "solver is no option here"),
            ("#subject=0+0+4+0+4+4%0Aclip+0+0+1+0+1+1&run=edges+NonZero", "line 1: it has a line break"),
            ("#clip=0+0+4+0+4+4&line=0+0+1+1%0D%0A&run=edges+NonZero", "line 2: it has a line break"),
            ("#point=1+1%0Arun+locate&run=locate", "line 1: it has a line break"),
            ("#run=edges+NonZero%0Asubject+0+0", "an unknown fill rule"),
        ):
            with self.subTest(link):
                self.page.open(DRAWN)
                self.page.open(link)
                self.assertIn(said, self.told())
                self.assertEqual(self.page.figures(), self.figures)
                # (where nothing is drawn before, the example stands there, and the notice over it)
                self.page.load(link)
                self.assertTrue(self.told().startswith("The link: "), self.told())
                self.assertIn(said, self.told())
                self.assertGreater(len(self.page.figures()["subject"]), 0)
        self.page.press("#clear")
        self.assertEqual(self.told(), "")

    def told(self):
        """The notice that is seen."""
        return self.page.run("const told = document.getElementById('notice'); return told.hidden ? '' : told.innerText")

    def test_file_can_be_chosen_again(self):
        self.page.give("bad.geojson", polygon('"0"'))
        self.assertIn("bad.geojson: feature 2", self.told())
        self.page.press("#clear")
        self.assertEqual(self.told(), "")
        self.page.give("bad.geojson", polygon('"0"'))
        self.assertIn("bad.geojson: feature 2", self.told())
        self.assertEqual([each for each in self.page.messages() if each["level"] == "SEVERE"], [])

    def test_many_polygons(self):
        self.page.give_made("many.geojson", MANY)
        self.assertEqual(self.told(), "")
        self.assertIn("800,000 points", self.page.text("summary"))
        self.assertEqual(self.page.run("return polyover.state.figures.subject.length"), 200_000)
        self.assertEqual(self.page.run("return polyover.state.figures.subject[199_999]"), square(1497, 1197, 2)[:-1])
        # (the next drawing is answered as ever)
        self.page.open(DRAWN)
        self.assertEqual(self.page.answer()["kind"], "shapes")


class Regions(unittest.TestCase):
    """What is opened means the region that its polygons cover, as in Python and JavaScript."""

    def setUp(self):
        self.page = browser()
        self.page.size()
        # (the page asks by even-odd before)
        self.page.open("#subject=0+0+9+0+9+9&run=overlay+Union+EvenOdd+ogc")

    def opened(self, *polygons):
        """Opens the features of polygons, each a list of rings, and points at some places."""
        shapes = [{"type": "Polygon", "coordinates": rings} for rings in polygons]
        shapes.append({"type": "MultiPoint", "coordinates": POINTS})
        features = [{"type": "Feature", "properties": {}, "geometry": each} for each in shapes]
        text = json.dumps({"type": "FeatureCollection", "features": features})
        self.page.give("features.geojson", text)
        return json.loads(text)

    def test_overlapping_features(self):
        self.opened([square(0, 0, 4)], [square(2, 2, 4)])
        self.assertEqual(self.page.run("return polyover.state.asked.fill"), "nonzero")
        answer = self.page.answer()
        self.assertEqual([len(shape) for shape in answer["shapes"]], [1])
        self.page.choose("command", "locate")
        self.assertEqual(self.page.answer()["locations"][:2], ["inside", "inside"])
        self.page.choose("fill", "evenodd")
        self.assertEqual(self.page.answer()["locations"][:2], ["outside", "inside"])

    def test_regions_and_places_are_those_of_python(self):
        wide, bow = square(0, 0, 8), [[0, 0], [4, 4], [4, 0], [0, 4], [0, 0]]
        for polygons in (
            [[square(0, 0, 4)], [square(2, 2, 4)]],
            [[square(0, 0, 4)[::-1]], [square(2, 2, 4)]],
            [[wide, square(2, 2, 4)], [square(3, 3, 2)]],
            [[wide, square(1, 1, 3), square(2, 2, 3)]],
            [[wide, square(6, 6, 4)]],
            [[bow], [square(1, 1, 3)]],
            [[[[0, 0], [4, 0], [2, 2], [4, 4], [0, 4], [2, 2], [0, 0]]], [square(3, 1, 3)]],
            [[[[5, 0], [2, 9], [9.8, 3.5], [0.2, 3.5], [8, 9], [5, 0]], square(4, 4, 2)]],
        ):
            with self.subTest(polygons):
                given = self.opened(*polygons)
                digits = self.page.run("return polyover.state.drawing.digits")
                scaled = polyover.Scaled.of_digits(digits)
                shape = {"type": "GeometryCollection", "geometries": [each["geometry"] for each in given["features"]]}
                with warnings.catch_warnings():
                    warnings.simplefilter("ignore")
                    contours = scaled.contours_of(shape)
                shapes = [[[list(point) for point in path] for path in each] for each in scaled.overlay(contours)]
                found = [
                    [[[value / 10**digits for value in point] for point in path] for path in each]
                    for each in self.page.answer()["shapes"]
                ]
                self.assertEqual(found, shapes)
                self.page.choose("command", "locate")
                self.assertEqual(self.page.answer()["locations"], scaled.prepared(contours).locate(POINTS))
                self.page.choose("command", "overlay")

    def test_two_files(self):
        """The second is the clip; both have the digits of the finer one."""
        fine = [[2.5, 2], [6, 2], [6, 6], [2.5, 6], [2.5, 2]]
        both = [{"type": "Polygon", "coordinates": [each]} for each in (square(0, 0, 4), fine)]
        self.page.open("#subject=0+0+9+0+9+9&run=overlay+Intersect+EvenOdd+ogc")
        self.page.give_several([[name, json.dumps(each)] for name, each in zip(("a.geojson", "b.geojson"), both)])
        self.assertIn("The subject is of a.geojson, the clip of b.geojson.", self.page.text("notice"))
        self.assertEqual(self.page.figures()["subject"], [[[0, 0], [40, 0], [40, 40], [0, 40]]])
        self.assertEqual(self.page.figures()["clip"], [[[25, 20], [60, 20], [60, 60], [25, 60]]])
        self.assertEqual(self.page.answer()["shapes"], [[[[25, 40], [25, 20], [40, 20], [40, 40]]]])
        # (what is said, and what is wrong, is of a file)
        self.page.give_several([["a.geojson", json.dumps(both[0])], ["b.geojson", polygon('"0"')]])
        self.assertIn("b.geojson: feature 2, polygon 1, ring 1, point 3", self.page.text("notice"))
        self.assertNotIn("a.geojson", self.page.text("notice"))
        self.page.press("#notice")
        self.assertTrue(self.page.run("return document.getElementById('notice').hidden"))
        beside = json.dumps({"type": "Polygon", "coordinates": [square(0, 0, 8), square(6, 6, 4)]})
        self.page.give_several([["a.geojson", json.dumps(both[0])], ["b.geojson", beside]])
        self.assertIn("b.geojson: 1 polygon meets itself or has holes", self.page.text("notice"))
        self.page.give_several([["a.geojson", json.dumps(both[0])]] * 3)
        self.assertIn("open one file, or two of GeoJSON", self.page.text("notice"))

    def test_what_is_changed_is_told(self):
        self.opened([square(0, 0, 8), square(6, 6, 4)])
        self.assertIn("1 polygon meets itself or has holes that overlap or lie outside", self.page.text("notice"))
        self.assertIn("(first: feature 1, polygon 1)", self.page.text("notice"))
        points = {"type": "MultiPoint", "coordinates": [[1, 2, 3], [0.123456789, 1]]}
        self.page.give("points.geojson", json.dumps(points))
        self.assertIn("1 points have members beyond x and y", self.page.text("notice"))
        self.assertIn("rounded to 7 digits", self.page.text("notice"))
        self.assertEqual(self.page.figures()["point"], [[[10000000, 20000000]], [[1234568, 10000000]]])
        self.page.give("none.geojson", '{"type": "Feature", "properties": null, "geometry": null}')
        self.assertIn("1 features have no geometry (first: feature 1)", self.page.text("notice"))


class Calls(unittest.TestCase):
    """The calls that the page writes run, and give an answer."""

    def called(self, language):
        """The call in a language."""
        browser().press(f'[data-language="{language}"]')
        return browser().text("call")

    def each_command(self):
        """Shows an example of each command, in turn."""
        browser().size()
        browser().load()
        examples = ("picture", "hierarchy", "winding", "relate", "clip", "floor", "tiles", "locate")
        for name in (*examples, "prepared", "edges"):
            if name == "edges":
                browser().choose("command", "edges")
            elif name == "prepared":
                browser().choose("fill", "nonzero")
            else:
                browser().example(name)
            yield name

    def run_of(self, *words, **how):
        """What a command prints."""
        ran = subprocess.run(words, capture_output=True, text=True, check=False, **how)
        self.assertEqual(ran.returncode, 0, ran.stderr)
        return ran.stdout

    def test_python(self):
        browser().size()
        browser().load()
        wanted, texts = [], []
        for name in EXAMPLES:
            if name != "refused" and (HAS_SOLVER or name != "needles"):
                browser().example(name)
                wanted.append((name, answered(browser().answer())))
                texts.append(self.called("python"))
        told = self.run_of(sys.executable, "-c", RUNNING, cwd=ROOT / "python", input=json.dumps(texts))
        found = [as_lists(ast.literal_eval(line)) for line in told.splitlines()]
        self.assertEqual(list(zip((name for name, _ in wanted), found)), wanted)

    @unittest.skipUnless(shutil.which("node"), "node is not here")
    def test_javascript(self):
        with tempfile.TemporaryDirectory() as folder:
            names = []
            for name in self.each_command():
                text = self.called("javascript").replace('"polyover"', f'"{ROOT}/js/polyover.js"')
                (Path(folder) / f"{name}.mjs").write_text(f'{text}console.log("{name}");\n')
                names.append(name)
            imports = "".join(f'import "{folder}/{name}.mjs";\n' for name in names)
            told = self.run_of("node", "--input-type=module", "-e", imports).splitlines()
            self.assertEqual(sorted(set(told) & set(names)), sorted(names))
            self.assertGreaterEqual(len(told), 2 * len(names))

    @unittest.skipUnless(HAS_SOLVER, "the library has no solver to choose")
    @unittest.skipUnless(shutil.which("cc") and LIBRARY.is_file(), "no C compiler, or no library")
    def test_c(self):
        for name in self.each_command():
            with self.subTest(name), tempfile.TemporaryDirectory() as folder:
                source = Path(folder) / "call.c"
                source.write_text(self.called("c"))
                built = Path(folder) / "call"
                self.run_of("cc", "-Wall", "-Wextra", "-Werror", f"-I{INCLUDE}", source, LIBRARY, "-o", built)
                self.assertGreater(len(self.run_of(built)), 1)

    def test_program(self):
        for name in self.each_command():
            with self.subTest(name):
                if name == "prepared":
                    self.assertIn("choose Even-odd", self.called("program"))
                else:
                    self.assertGreater(len(printed(self.called("program"))), 2)


if __name__ == "__main__":
    unittest.main()
