"""Pictures: those of the documents are as they are made, and each command has one."""

import unittest
from pathlib import Path
from xml.etree import ElementTree

from polyover import PolyoverError, backend
from polyover.errors import BadInput
from polyover.inputs import picture_of
from polyover.picture import Picture

from .there import ask_library_alone, with_library

ROOT = Path(__file__).resolve().parents[2]
PICTURES = ROOT / "docs" / "pictures"
MADE = ("floor_plan", "overlay")
SQUARE = "subject 0 0 4 0 4 4 0 4\n"


def made(name):
    """The picture of an example."""
    return picture_of((ROOT / "examples" / f"{name}.txt").read_text(), with_nodes=True).svg()


class Pictures(unittest.TestCase):
    """What is drawn."""

    def test_documents(self):
        for name in MADE:
            file = PICTURES / f"{name}.svg"
            self.assertEqual(file.read_text(), made(name), f"{file}: .ci/python --pictures makes it anew")

    def drawn(self, text):
        """The elements of a picture, and the words of its legend."""
        root = ElementTree.fromstring(picture_of(text).svg())
        return root, [each.text for each in root.iter() if each.tag.endswith("text")]

    def test_edges_have_ticks_on_their_filled_sides(self):
        root, words = self.drawn(SQUARE + "run edges NonZero\n")
        ticks = [each for each in root.iter() if each.get("stroke-width") == "2.4"]
        self.assertEqual(len(ticks), 4)
        self.assertIn("edge", words)

    def test_points_by_location(self):
        _, words = self.drawn(SQUARE + "point 2 2\npoint 4 2\npoint 9 9\nrun locate\n")
        self.assertEqual(words[-3:], ["inside", "boundary", "outside"])
        _, words = self.drawn(SQUARE + "point 2 2\npoint 9 9\nrun contains\n")
        self.assertEqual(words[-2:], ["inside", "outside"])

    def test_ends_of_the_range(self):
        far = 4611686018427387903
        root, _ = self.drawn(f"subject {-far} {-far} {far} {-far} {far} {far}\nrun overlay Subject NonZero\n")
        self.assertLess(float(root.get("width")), 1000)

    def test_labels_of_large_coordinates_fit(self):
        far = 4611686018427387903
        for low, high in ((-far, far), (far - 40, far), (0.123456789012, 0.123456789013)):
            picture = Picture("far")
            picture.add_contours("subject", [[(low, low), (high, low), (high, high)]])
            root = ElementTree.fromstring(picture.svg())
            levels = [each for each in root.iter() if each.get("text-anchor") == "end"]
            uprights = [each for each in root.iter() if each.get("text-anchor") == "middle"]
            self.assertTrue(levels and uprights)
            for each in levels:
                # (a letter of size 11 is at least 6 wide)
                self.assertGreaterEqual(float(each.get("x")) - 6 * len(each.text), 0, each.text)
            reach = [(float(each.get("x")), 3 * len(each.text)) for each in uprights]
            for (x, half), (u, other) in zip(reach, reach[1:]):
                self.assertLess(x + half, u - other)

    def test_strokes_are_thin_beside_small_shapes(self):
        picture = Picture("small")
        picture.add_contours("subject", [[(0, 0), (10000, 0), (10000, 10000)]])
        picture.add_contours("answer", [[(20, 20), (40, 20), (40, 40)]])
        root = ElementTree.fromstring(picture.svg())
        wide, thin = [float(each.get("stroke-width")) for each in root.iter() if each.get("fill-rule")]
        # (the small one is 0.94 wide in the picture)
        self.assertEqual(wide, 1.2)
        self.assertLessEqual(thin, 0.94 / 4)

    def test_width(self):
        for wide in (400, 750, 2000):
            picture = Picture("wide")
            picture.add_contours("subject", [[(0, 0), (7, 0), (7, 7)]])
            self.assertEqual(float(ElementTree.fromstring(picture.svg(wide)).get("width")), wide)

    def test_long_titles_stand_in_lines(self):
        title = "run overlay InverseDifference NonZero ogc clockwise keep min 100"
        for words in ("", "run edges NonZero", title):
            picture = Picture(words)
            picture.add_points("node", [(0, 0), (1, 1)])
            texts = [each for each in ElementTree.fromstring(picture.svg()).iter() if each.tag.endswith("text")]
            lines = [each for each in texts if each.get("font-weight") == "bold"]
            self.assertEqual(" ".join(each.text or "" for each in lines), words)
            self.assertLessEqual(max(len(each.text or "") for each in lines), 26)
            (below,) = [each for each in texts if each.text == "node"]
            self.assertEqual(float(below.get("y")), float(lines[-1].get("y")) + 20)

    def nodes(self, text):
        """The nodes in a picture of an input whose largest side is 12."""
        root = ElementTree.fromstring(picture_of(text, with_nodes=True).svg())
        dots = [each for each in root.iter() if each.get("fill") == "#111111" and each.get("r") == "3.5"]
        scale, height = (560 - 2 * 46) / 12, float(root.get("height"))
        places = [(float(each.get("cx")) - 46, height - 46 - float(each.get("cy"))) for each in dots]
        return {(round(x / scale), round(y / scale)) for x, y in places[:-1]}

    def test_nodes_of_walls(self):
        hall = "subject 0 0 12 0 12 8 0 8\n"
        corners = {(0, 0), (12, 0), (12, 8), (0, 8)}
        slices = hall + "line 4 0 4 8\nline 4 3 9 3 9 5\nrun slice EvenOdd\n"
        self.assertEqual(self.nodes(slices), corners | {(4, 0), (4, 8), (4, 3), (9, 3), (9, 5)})
        self.assertEqual(self.nodes(hall + "run tiles EvenOdd 6 9\n"), corners | {(6, 0), (6, 8)})
        clip = hall + "line 1 1 1 9\nline 2 9 2 10\nrun clip EvenOdd\n"
        self.assertEqual(self.nodes(clip), corners | {(1, 1), (1, 8), (1, 9), (2, 9), (2, 10)})

    def test_nothing(self):
        self.drawn("run overlay Union NonZero\n")
        self.drawn("subject 3 3\nrun edges NonZero\n")

    def test_bad_inputs(self):
        for text in ("", "subject 0 x\nrun edges NonZero\n", SQUARE):
            with self.assertRaises(BadInput):
                picture_of(text)
        for text in ("subject 0 0 4 4 4 0 0 4\nrun locate\n", SQUARE + "run tiles NonZero 1 0\n"):
            with self.assertRaises(PolyoverError):
                picture_of(text)

    def test_title_of_relations(self):
        _, words = self.drawn(SQUARE + "clip 4 0 8 0 8 4 4 4\nrun relate NonZero\n")
        self.assertIn("intersects, touches", words)


@with_library
class PicturesOfTheLibrary(Pictures):
    """The same, where there is no program."""

    def setUp(self):
        ask_library_alone(self)
        self.assertEqual(backend(), "library")
