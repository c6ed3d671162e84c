"""What a visitor sees first: the line that says what the page is, the stars that turn, and captions of examples."""

import re
import unittest

from .page import EXAMPLES, ROOT, browser
from .test_look import SQUARES

QUOTED = re.compile(r"((?:^   >.*\n)+)", re.MULTILINE)
TOLD = re.compile(r"^(20|40|100|200|400|1,000|2,000|4,000|10,000|20,000) edges, [0-9,]+ µs a call$")
MICROSECONDS = re.compile("([0-9,]+) µs")
STARS = "return polyover.state.figures"
TURNED = "return JSON.stringify(polyover.state.figures) !== JSON.stringify(arguments[0])"
IS_TIMED = "return document.getElementById('turning-told').textContent.includes('µs a call')"
SLID = """
    const slider = document.getElementById("turning-edges");
    slider.value = arguments[0];
    slider.dispatchEvent(new Event("input"));
"""
BUILT = """
    const [built, done] = arguments;
    import("./promise.js").then(({ tellBuilt }) => {
        tellBuilt(built);
        done(document.getElementById("built").textContent);
    });
"""


def words_of(text):
    """The words of a text, without the marks of Markdown."""
    return text.replace(">", " ").replace("`", "").replace("’", "'").split()


class First(unittest.TestCase):
    """The page as it is opened."""

    def setUp(self):
        self.page = browser()
        self.page.size()
        self.addCleanup(self.page.leave)

    def is_turning(self):
        """Whether the stars turn."""
        return self.page.run("return polyover.state.isTurning")

    def test_proof_is_said_of_a_proved_library_alone(self):
        self.page.load()
        self.page.until("return 'built' in document.getElementById('built').dataset")
        built = self.page.run("return document.getElementById('built').dataset.built")
        self.assertIn(built, ("proved", "unproved"))
        said = self.page.text("built")
        told = {each: self.page.run_later(BUILT, each) for each in ("proved", "unproved", "unknown")}
        self.assertEqual(said, told[built])
        self.assertIn("Each answer is proved for every input", told["proved"])
        self.assertIn("built without its proof", told["unproved"])
        self.assertEqual(told["unknown"], "")
        self.assertIn("Polyover is a library", self.page.run("return document.querySelector('.lead').textContent"))

    def test_guarantee_is_that_of_the_readme(self):
        self.page.load()
        quoted = QUOTED.search((ROOT / "README.md").read_text())[1]
        self.assertEqual(words_of(self.page.text("headline")), words_of(quoted))
        for link in ("#promise-open", "#limits-open"):
            self.page.press(link)
            self.assertTrue(self.page.run("return document.getElementById('promise').open"))
            self.page.press("#promise form button")
            self.assertFalse(self.page.run("return document.getElementById('promise').open"))

    def test_stars_turn_until_the_visitor_draws(self):
        self.page.size(is_moving=True)
        self.page.load()
        for stopped in (
            lambda: self.page.click(0, 0),
            lambda: self.page.press('[data-kind="line"]'),
            lambda: self.page.press("#turning-switch"),
            lambda: self.page.keys("n"),
            self.page.size,
        ):
            before = self.page.run(STARS)
            self.page.until(TURNED, before)
            self.page.until(IS_TIMED)
            self.assertRegex(self.page.text("turning-told"), TOLD)
            stopped()
            self.assertFalse(self.is_turning())
            before = self.page.run(STARS)
            self.page.frames()
            self.assertEqual(self.page.run(STARS), before)
            self.page.size(is_moving=True)
            self.page.press('[data-tool="edit"]')
            self.page.run("document.getElementById('turning-switch').click()")
            self.assertTrue(self.is_turning())
        self.page.run("polyover.state.step({ figures: { ...polyover.state.figures, clip: [] } })")
        self.assertFalse(self.is_turning())
        self.assertTrue(self.page.run("return document.getElementById('turning').hidden"))

    def test_stars_that_turn_fit_their_answer(self):
        """The board shows the stars that were answered, and once they stand those that are drawn."""
        self.page.size(is_moving=True)
        self.page.load()
        fits = "const { board, state } = polyover; return [board.drawing === state.answer.drawing, state.isTurning]"
        for _ in range(20):
            self.assertEqual(self.page.run(fits), [True, True])
        self.page.press("#turning-switch")
        self.assertTrue(self.page.run("return polyover.board.drawing === polyover.state.drawing"))
        self.page.size()

    def test_stars_stand_where_motion_is_not_wanted(self):
        self.page.load()
        self.assertFalse(self.is_turning())
        self.assertEqual(self.page.run("return document.getElementById('example').value"), "stars")
        for place, edges in enumerate((20, 40, 100, 200, 400, 1000, 2000, 4000, 10000, 20000)):
            self.page.run(SLID, place)
            self.page.wait()
            count = "return polyover.state.figures[arguments[0]][0].length"
            self.assertEqual([self.page.run(count, kind) for kind in ("subject", "clip")], [edges / 2, edges / 2])
            self.assertRegex(self.page.text("turning-told"), TOLD)
            self.assertEqual(self.page.answer()["kind"], "shapes")

    def test_time_of_stars_that_stand_is_of_a_warm_call(self):
        """It is near that of many calls. (A busy machine is asked until it has a moment for it.)"""

        def told():
            return int(MICROSECONDS.search(self.page.text("turning-told"))[1].replace(",", ""))

        def is_near():
            self.page.load()
            first = told()
            self.page.press("#turning-switch")
            self.page.until("return polyover.turning.times.length === 15")
            return first < 8 * told()

        self.assertTrue(any(is_near() for _ in range(5)))

    def test_each_example_says_what_to_try(self):
        self.page.load()
        for name in EXAMPLES:
            self.page.example(name)
            self.assertIn("Try this: ", self.page.text("caption"), name)
        self.page.open(SQUARES)
        self.assertIn("the answer follows each move", self.page.text("caption"))


if __name__ == "__main__":
    unittest.main()
