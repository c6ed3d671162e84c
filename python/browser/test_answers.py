"""Answers of the page: of each example, and of each command with its options, they are those of the program, which
splits in rounds, and tells relations of the arrangement; snapped ones are compared with Python's in test_files.py."""

import unittest

from polyover.commands import printed
from polyover.errors import NotSettled
from polyover.text import RELATIONS, printed_path, printed_shapes

from .page import DRAWN, EXAMPLES, ROOT, browser

# (until it has one, the library answers by rounds)
HAS_SOLVER = "POLYOVER_ROUNDS" in (ROOT / "include" / "polyover.h").read_text()
OPTIONS = {
    "overlay": [{"rule": "xor", "clockwise": True}, {"rule": "difference", "keep": True, "fill": "evenodd"}],
    "hierarchy": [{"rule": "subject", "fill": "evenodd", "valid": False}],
    "simplify": [{"minimumArea": "8"}],
    "relate": [{"fill": "negative"}],
    "clip": [{"invert": True}, {"boundary": True}],
    "slice": [{"fill": "evenodd"}],
    "tiles": [{"width": "3", "height": "2"}, {"fill": "evenodd", "width": "4", "height": "9"}],
    "locate": [{"fill": "evenodd"}],
    "edges": [{"fill": "positive"}],
}
# (the program has rounds alone, and relations of the arrangement)
BEFORE = {
    "of": "arrangement",
    "solver": "rounds",
    "fill": "nonzero",
    "valid": True,
    "clockwise": False,
    "keep": False,
    "minimumArea": "0",
    "invert": False,
    "boundary": False,
}
def text_of(answer):
    """An answer as the program prints it."""
    kind = answer["kind"]
    if kind == "shapes":
        links = "".join(f"link {' '.join(map(str, link))}\n" for link in answer.get("links", []))
        return printed_shapes(answer["shapes"]) + links
    if kind == "paths":
        return "".join(map(printed_path, answer["paths"]))
    if kind == "edges":
        return "".join(f"edge {ax} {ay} {bx} {by} {fill}\n" for (ax, ay), (bx, by), fill in answer["edges"])
    if kind == "relations":
        return "".join(f"{name} {str(answer['relations'][name]).lower()}\n" for name in RELATIONS)
    return "".join(f"{place}\n" for place in answer["locations"])


LATER = """
    const { engine, state } = polyover;
    const [x] = arguments;
    const next = { ...state.figures, subject: [...state.figures.subject, [[x, 0], [x + 1, 0], [x, 1]]] };
"""


class Workers(unittest.TestCase):
    """A worker that ends by itself is told, and another one answers the next question."""

    def setUp(self):
        self.page = browser()
        self.page.size()
        self.page.load(DRAWN)

    def is_told(self):
        """That the fault is seen, and that the page answers again: to the button, and to the next drawing."""
        self.page.until("return polyover.state.answer?.name === 'WorkerEnded'")
        self.page.frames()
        self.assertIn("The worker ended by itself", self.page.text("answer"))
        self.assertIn("The worker ended by itself", self.page.text("summary"))
        self.page.press("#answer button")
        self.page.until("return polyover.state.answer?.kind === 'shapes'")
        self.page.run(LATER + "state.step({ figures: next });", 40)
        self.assertEqual(self.page.answer()["kind"], "shapes")

    def test_worker_that_ends_in_silence(self):
        self.page.until("return polyover.engine.isReady")
        self.page.run(LATER + "state.step({ figures: next }); engine.worker.terminate();", 20)
        self.is_told()

    def test_worker_that_ends_with_an_error(self):
        fault = "engine.worker.dispatchEvent(new ErrorEvent('error', { message: 'out of memory', cancelable: true }));"
        self.page.run(LATER + "state.step({ figures: next });" + fault, 20)
        self.is_told()

    def test_worker_that_ends_while_nothing_is_asked(self):
        self.page.until("return polyover.engine.isReady")
        self.page.run("polyover.engine.worker.terminate()")
        self.page.until("return polyover.engine.worker === null")
        self.page.run(LATER + "state.step({ figures: next });", 30)
        self.assertEqual(self.page.answer()["kind"], "shapes")

    def test_library_that_stops_in_its_midst(self):
        """A trap of the module is told, and the next question goes to a new worker."""
        told = "engine.receive({ kind: 'fault', name: 'RuntimeError', message: 'unreachable', time: 0 });"
        self.page.run(LATER + "globalThis.before = engine.worker; state.step({ figures: next });" + told, 20)
        self.page.until("return polyover.engine.worker !== globalThis.before")
        self.page.run(LATER + "state.step({ figures: next });", 30)
        self.assertEqual(self.page.answer()["kind"], "shapes")


class Answers(unittest.TestCase):
    """What the page answers."""

    @classmethod
    def setUpClass(cls):
        cls.page = browser()
        cls.page.size()
        cls.page.load()

    def called(self):
        """The lines of the program that the page writes for its answer."""
        self.page.press('[data-language="program"]')
        return self.page.text("call")

    def test_examples(self):
        self.assertGreaterEqual(len(EXAMPLES), 13)
        for name in EXAMPLES:
            with self.subTest(name):
                self.page.example(name)
                self.page.choose("of", "arrangement")
                self.page.choose("solver", "rounds")
                answer, text = self.page.answer(), self.called()
                if name in ("refused", "needles"):
                    self.assertEqual(answer["name"], "NotSettled")
                    self.assertRaises(NotSettled, printed, text)
                    continue
                self.assertEqual(text_of(answer), printed(text))

    @unittest.skipUnless(HAS_SOLVER, "the library has no solver to choose")
    def test_needles_are_answered_by_snapping(self):
        self.page.example("refused")
        self.page.press("#answer button")
        answer = self.page.answer()
        self.assertEqual(answer["kind"], "shapes")
        self.page.example("needles")
        self.assertEqual(self.page.answer(), answer)

    def test_commands(self):
        self.page.open(DRAWN)
        for command, several in OPTIONS.items():
            for options in several:
                with self.subTest(command, **options):
                    self.page.choose("command", command)
                    for name, value in {**BEFORE, **options}.items():
                        self.page.choose(name, value)
                    self.assertEqual(text_of(self.page.answer()), printed(self.called()))

    def holding(self):
        """The relations that hold."""
        return {name for name, holds in self.page.answer()["relations"].items() if holds}

    def test_relations_of_the_contours_as_drawn(self):
        """Subject and clip overlap; the clip runs clockwise. The others meet in (1/3, 2/3) alone."""
        overlap = {"intersects", "interiors_intersect"}
        self.page.open("#subject=0+-1+4+5+1+2&clip=0+0+4+5+5+6&run=relate+NonZero")
        self.assertEqual(self.holding(), overlap)
        self.assertIn("nothing is rounded", self.page.text("says"))
        shown = "return document.querySelector('label[data-option=solver]').getBoundingClientRect().width > 0"
        self.assertFalse(self.page.run(shown))
        for fill, told in (("evenodd", overlap), ("positive", {"disjoint"}), ("negative", {"disjoint"})):
            self.page.choose("fill", fill)
            self.assertEqual(self.holding(), told)
        self.page.open("#subject=0+0+1+2+1+4+0+-1&clip=0+1+1+0+1+-2+0+2&run=relate+EvenOdd")
        self.assertEqual(self.holding(), {"intersects", "touches", "point_intersects"})
        self.page.choose("of", "arrangement")
        self.assertTrue(self.page.run(shown))
        self.assertIn("points are rounded", self.page.text("says"))

    def test_calls_of_relations_of_the_contours(self):
        """They have the coordinates as drawn; the program, which tells relations of the arrangement, finer ones."""
        self.page.open("#subject=1+2+2+0+3+2&clip=0+0+3+2+2+1&run=relate+NonZero")
        for language, call in (
            ("python", 'polyover.relate(subject, clip, "nonzero"))'),
            ("c", "polyover_relate_exact(POLYOVER_NON_ZERO, &subject, &clip, &relations)"),
            ("javascript", "polyover.relate(subject, clip))"),
            ("rattle", "ExactPredicates::<i64, Global>::new(alloc, 16)"),
        ):
            self.page.press(f'[data-language="{language}"]')
            self.assertIn(call, self.page.text("call"))
            self.assertNotIn(str(2**60), self.page.text("call"))
            self.assertEqual(self.page.text("call-note"), "")
        self.assertIn(str(3 * 2**60), self.called())
        self.assertIn("the program of the arrangement, which may differ", self.page.text("call-note"))
        self.page.choose("of", "arrangement")
        self.assertIn("run relate NonZero", self.called())
        self.assertNotIn("which may differ", self.page.text("call-note"))
        for solver in ("snapped", "rounds"):
            self.page.choose("solver", solver)
            self.page.press('[data-language="python"]')
            self.assertIn(f'"nonzero", solver="{solver}"))', self.page.text("call"))
            self.page.press('[data-language="javascript"]')
            self.assertIn(f'relate(subject, clip, {{ solver: "{solver}" }}))', self.page.text("call"))

    def test_relations_of_the_program_are_those_of_the_page(self):
        """They are told at the finest scale: as they are, the second triangle becomes a line, and they are disjoint."""
        self.page.open("#subject=1+2+2+0+3+2&clip=0+0+3+2+2+1&run=relate+NonZero")
        self.page.choose("of", "arrangement")
        for solver in ("snapped", "rounds"):
            self.page.choose("solver", solver)
            answer = self.page.answer()
            self.assertFalse(answer["relations"]["disjoint"])
            self.assertEqual(text_of(answer), printed(self.called()))
            self.assertIn("times a power of two", self.page.text("call-note"))
        # (2^60 times 3 is in the range, and 2^61 times 3 is not)
        self.assertIn(f"subject {2**60} {2 * 2**60} {2 * 2**60} 0 {3 * 2**60} {2 * 2**60}\n", self.called())
        for language in ("c", "rattle"):
            self.page.press(f'[data-language="{language}"]')
            self.assertIn(str(3 * 2**60), self.page.text("call"))

    def test_points_by_each_fill_rule(self):
        """A square with another inside that runs the same way, and one beside it that runs the other way."""
        wound = "#subject=0+0+9+0+9+9+0+9&subject=3+3+6+3+6+6+3+6&subject=20+0+20+9+29+9+29+0"
        self.page.open(f"{wound}&point=1+1&point=4+4&point=3+5&point=25+5&point=0+9&run=locate")
        inside, on, outside = "inside", "boundary", "outside"
        for fill, places in (
            ("evenodd", [inside, outside, on, inside, on]),
            ("nonzero", [inside, inside, inside, inside, on]),
            ("positive", [inside, inside, inside, outside, on]),
            ("negative", [outside, outside, outside, inside, outside]),
        ):
            self.page.choose("fill", fill)
            self.assertEqual(self.page.answer()["locations"], places)
            told = self.called()
            if fill == "evenodd":
                self.assertEqual(text_of(self.page.answer()), printed(told))
            else:
                self.assertIn("choose Even-odd", told)
                self.page.press('[data-language="python"]')
                self.assertIn(f'polyover.Prepared(subject, "{fill}").locate(points)', self.page.text("call"))

    def test_simple_contour_stays(self):
        self.page.open("#subject=1+1+3+1+2+4&run=simplify+NonZero+ogc")
        self.assertEqual(self.page.answer()["shapes"], [[[[1, 1], [3, 1], [2, 4]]]])

    def test_unresolved_contour_is_a_fault(self):
        self.page.open("#subject=0+0+4+4+4+0+0+4&point=1+1&run=locate")
        self.assertEqual(self.page.answer()["name"], "NotResolved")
        self.assertIn("contour 1", self.page.text("answer"))

    def test_tiles(self):
        """A square of side 4 in two cells; a cell has sides of at least 1, and a grid at most 1,000 lines."""
        self.page.open("#subject=0+0+4+0+4+4+0+4&run=tiles+NonZero+2+9")
        left, right = [[2, 0], [2, 4], [0, 4], [0, 0]], [[4, 0], [4, 4], [2, 4], [2, 0]]
        self.assertEqual(self.page.answer()["shapes"], [[left], [right]])
        self.page.choose("width", "0")
        self.assertEqual(self.page.run("return polyover.state.asked.width"), 1)
        self.page.open("#subject=0+0+1002+0+0+4&run=tiles+NonZero+1+9")
        self.assertEqual(self.page.answer()["name"], "BadInput")
        self.assertIn("more than 1,000 lines in a direction", self.page.text("answer"))

    def test_nothing(self):
        self.page.press("#clear")
        for command in OPTIONS:
            self.page.choose("command", command)
            self.assertNotEqual(self.page.answer()["kind"], "fault")

    def test_nodes_and_sides(self):
        self.page.open("#subject=0+0+4+0+4+4+0+4&clip=2+2+6+2+6+6+2+6&run=overlay+Union+NonZero")
        self.page.choose("nodes", True)
        corners = {(0, 0), (4, 0), (4, 4), (0, 4), (2, 2), (6, 2), (6, 6), (2, 6), (4, 2), (2, 4)}
        self.assertEqual({tuple(node) for node in self.page.answer()["nodes"]}, corners)
        self.page.open("#subject=0+0+4+0+4+4+0+4&line=2+-1+2+3&run=slice+NonZero")
        self.page.choose("sides", True)
        self.assertIn([2, 0], self.page.answer()["nodes"])


if __name__ == "__main__":
    unittest.main()
