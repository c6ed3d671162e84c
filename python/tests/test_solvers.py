"""Both solvers, of contours that rounds do not settle: needles, whose long sides cross very flatly."""

import re
import unittest

import polyover
from polyover.commands import figures_in

from .features import feature, ran
from .inputs import ROOT
from .there import ask_library_alone, ask_program_alone, with_library, with_program

# By snap rounding (0, 65) is led into the long sides, by hand, and the tips above it fall to lines.
FIRST, SECOND = [(2, 0), (0, 66), (2, -66)], [(1, 0), (0, 67), (-1, 0)]
UNITED = [[[(0, 65), (-1, 0), (1, 0), (2, -66), (2, 0)]]]
LINE, ALONG = [(1, 0), (0, 67)], [[(1, 0), (0, 65)]]
# (in one cell of a grid, so that no line of it cuts them)
IN_A_CELL = [[(x + 10, y + 100) for x, y in contour] for contour in (FIRST, SECOND)]
ASKED = {
    "overlay": ([FIRST], [SECOND]),
    "hierarchy": ([FIRST], [SECOND]),
    "simplify": ([FIRST, SECOND],),
    "edges": ([FIRST], [SECOND]),
    "clip": ([FIRST], [LINE]),
    "slice": ([FIRST], [LINE]),
    "tiles": (IN_A_CELL, 1000, 1000),
}


def asked(owner, name, **options):
    """What a call answers of the needles."""
    return getattr(owner, name)(*ASKED[name], **options)


@with_library
class ByLibrary(unittest.TestCase):
    """The library settles what it snaps, and refuses what rounds do not settle."""

    def setUp(self):
        ask_library_alone(self)

    def test_snapped_by_default(self):
        for owner in (polyover, polyover.Scaled(1)):
            for options in ({}, {"solver": "snapped"}):
                self.assertEqual(asked(owner, "overlay", **options), UNITED)
                self.assertEqual(asked(owner, "hierarchy", **options), (UNITED, []))
                self.assertEqual(len(asked(owner, "simplify", **options)[0][0]), 5)
                self.assertEqual(len(asked(owner, "edges", **options)), 6)
                self.assertEqual(asked(owner, "clip", boundary=True, **options), ALONG)
                self.assertEqual(len(asked(owner, "slice", **options)[0][0]), 4)
                self.assertEqual(len(asked(owner, "tiles", **options)[0][0]), 5)
        self.assertEqual(list(polyover.overlay([FIRST], [SECOND], arrays=True)), UNITED)

    def test_rounds_do_not_settle(self):
        for owner in (polyover, polyover.Scaled(1)):
            for name in ASKED:
                with self.subTest(name), self.assertRaisesRegex(polyover.NotSettled, "64 rounds"):
                    asked(owner, name, solver="rounds")

    def test_relations_by_both(self):
        # (at the finest scale both settle: the tips cross there, and are not led into one line)
        told = [polyover.relate([FIRST], [SECOND], solver=solver) for solver in ("snapped", "rounds")]
        self.assertTrue(all(each["interiors_intersect"] for each in told))

    def test_one_answer_where_edges_meet_in_whole_points(self):
        left, right = [(0, 0), (4, 0), (4, 4), (0, 4)], [(2, 2), (6, 2), (6, 6), (2, 6)]
        answers = [polyover.overlay([left], [right], "xor", solver=solver) for solver in ("snapped", "rounds")]
        self.assertEqual(len(answers[0]), 2)
        self.assertEqual(*answers)


@with_program
class ByProgram(unittest.TestCase):
    """The program has rounds alone: whatever solver is named, a refusal says where snap rounding is."""

    def setUp(self):
        ask_program_alone(self)

    def test_the_library_is_named(self):
        for options in ({}, {"solver": "snapped"}, {"solver": "rounds"}):
            for name in ASKED:
                with self.subTest(name), self.assertRaisesRegex(polyover.NotSettled, "no snap rounding: the library"):
                    asked(polyover, name, **options)

    def test_what_settles_is_answered(self):
        for solver in ("snapped", "rounds"):
            self.assertEqual(len(polyover.overlay([FIRST], solver=solver)), 1)


def polygons(*contours):
    """A feature of polygons, each with one ring."""
    return feature("MultiPolygon", [[[*contour, contour[0]]] for contour in contours])


ONE, OTHER = polygons(FIRST), polygons(SECOND)
FILES = {
    "overlay": (ONE, OTHER),
    "clip": (ONE, feature("LineString", LINE)),
    "slice": (ONE, feature("LineString", LINE)),
    "simplify": (polygons(FIRST, SECOND),),
    "tiles": (polygons(*IN_A_CELL),),
}


@with_library
class CommandLine(unittest.TestCase):
    """`--solver` of the commands over files."""

    def setUp(self):
        ask_library_alone(self)

    def asked(self, command, *words):
        """What a command leaves and says of the needles, taken as whole numbers; nothing where it does not answer."""
        more = {"tiles": ["1000", "1000"], "clip": ["--boundary"]}.get(command, [])
        status, left, said, _ = ran(command, *FILES[command], words=[*more, "--digits", "0", *words])
        self.assertEqual(status, 0 if left is not None else 1)
        return left, said

    def test_each_command(self):
        for command in FILES:
            with self.subTest(command):
                left, said = self.asked(command)
                self.assertTrue(left["features"])
                self.assertEqual(self.asked(command, "--solver", "snapped"), (left, said))
                left, said = self.asked(command, "--solver", "rounds")
                self.assertIsNone(left)
                self.assertIn("64 rounds", said)

    def test_pieces_of_features(self):
        words = ["--keep", "--rule", "difference", "--solver"]
        self.assertEqual(len(self.asked("overlay", *words, "snapped")[0]["features"]), 1)
        self.assertIsNone(self.asked("overlay", *words, "rounds")[0])

    def test_relations(self):
        for solver in ("snapped", "rounds"):
            status, left, *_ = ran("relate", ONE, OTHER, words=["--solver", solver])
            self.assertEqual((status, left["disjoint"]), (0, False))

    def test_unknown_solvers(self):
        for command, solver in (("overlay", "snap"), ("locate", "rounds")):
            with self.assertRaises(SystemExit) as ended:
                ran(command, ONE, OTHER, words=["--solver", solver])
            self.assertEqual(ended.exception.code, 2)


@with_library
class Copies(unittest.TestCase):
    """The copies of a pentagon that docs/PROGRAM.md tells of."""

    def test_as_many_edges_as_the_page_says(self):
        figures, _ = figures_in((ROOT / "examples" / "copies.txt").read_text())
        page = (ROOT / "docs" / "PROGRAM.md").read_text()
        told = re.search(r"`examples/copies.txt` has (\d+) edges: .* Snap rounding makes (\d+) edges", page, re.S)
        edges = sum(map(len, figures["subject"])), len(polyover.edges(figures["subject"]))
        self.assertEqual(edges, tuple(map(int, told.groups())))


if __name__ == "__main__":
    unittest.main()
