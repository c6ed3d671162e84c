"""Pictures of all rules, windings at the pointer, the lens, both solvers side by side, and the check of an answer."""

import unittest

from .page import browser
from .test_hand import RINGS
from .test_look import SQUARES

RULES = ("union", "intersect", "difference", "inverse_difference", "xor", "subject", "clip")
FILLS = ("nonzero", "evenodd", "positive", "negative")
# of two squares of area 16 that share one of 4: the subject winds once; the clip runs clockwise and winds -1
TURNED = "#subject=0+0+4+0+4+4+0+4&clip=2+2+2+6+6+6+6+2&run=overlay+Union+NonZero+ogc"
AREAS = {
    # both are filled
    "both": {
        "union": 28,
        "intersect": 4,
        "difference": 12,
        "inverse_difference": 12,
        "xor": 24,
        "subject": 16,
        "clip": 16,
    },
    # the subject alone, and the clip alone
    "positive": {
        "union": 16,
        "intersect": 0,
        "difference": 16,
        "inverse_difference": 0,
        "xor": 16,
        "subject": 16,
        "clip": 0,
    },
    "negative": {
        "union": 16,
        "intersect": 0,
        "difference": 0,
        "inverse_difference": 16,
        "xor": 16,
        "subject": 0,
        "clip": 16,
    },
}
SHOWN = "return polyover.gallery.shown === polyover.state.figures"
GALLERY = """
    const area = (path) => path.reduce((sum, [x, y], at) => {
        const [u, v] = path[(at + 1) % path.length];
        return sum + (x * v - u * y) / 2;
    }, 0);
    return polyover.gallery.buttons.map(({ dataset }, at) => [
        dataset.rule, dataset.fill, polyover.gallery.answers[at].reduce((sum, path) => sum + area(path), 0),
    ]);
"""
# windings and nearness of a step, by the page and by fractions here
ASKED = """
    const [rows, done] = arguments;
    import("./windings.js").then(({ isNear, windingOf }) =>
        done(rows.map(([contour, step, x, y, reach]) => [windingOf([contour], x, y), isNear(step, x, y, reach)])));
"""
CHECKED = """
    const [change, done] = arguments;
    import("./check.js").then(({ Check }) => {
        const answer = structuredClone(polyover.state.answer);
        for (const path of answer.shapes.flat()) {
            if (change === "reversed") path.reverse();
            if (change === "moved") path.forEach((point) => (point[0] += 500));
        }
        const check = new Check(answer);
        check.run(1e6);
        done([check.checked, check.agreed, check.leftOut, check.wrong, check.said]);
    });
"""
PIXEL = """
    const { board } = polyover, [left, top] = arguments;
    board.paint();
    return [...board.canvas.getContext("2d").getImageData(left, top, 1, 1).data];
"""


class Rules(unittest.TestCase):
    """What the page shows beside the answer."""

    def setUp(self):
        self.page = browser()
        self.page.size()
        self.page.open(SQUARES)

    def test_pictures_of_all_rules(self):
        self.page.open(TURNED)
        self.page.until(SHOWN)
        found = self.page.run(GALLERY)
        self.assertEqual([each[:2] for each in found], [[rule, fill] for rule in RULES for fill in FILLS])
        for rule, fill, area in found:
            self.assertEqual(area, AREAS["both" if fill in ("nonzero", "evenodd") else fill][rule], (rule, fill))

    def test_many_points_have_no_pictures(self):
        painted = "return polyover.gallery.painted === polyover.state.figures"
        inked = """
            return polyover.gallery.buttons
                .map(({ firstElementChild }) => firstElementChild)
                .filter((each) => each.getContext("2d").getImageData(0, 0, each.width, each.height).data.some(Boolean))
                .length;
        """
        self.page.until(painted)
        self.assertEqual(self.page.run(inked), 28)
        self.page.run(RINGS, 1001)
        self.page.wait()
        self.page.until(painted)
        self.assertEqual(self.page.run(inked), 0)
        self.page.load(SQUARES)

    def test_each_picture_chooses_its_rules(self):
        for rule in RULES:
            for fill in FILLS:
                self.page.press(f'.gallery [data-rule="{rule}"][data-fill="{fill}"]')
                asked = self.page.run("return [polyover.state.asked.rule, polyover.state.asked.fill]")
                self.assertEqual(asked, [rule, fill])
                pressed = "return [...document.querySelectorAll('.gallery [aria-pressed=true]')].map((e) => e.title)"
                (title,) = self.page.run(pressed)
                self.assertIn(", ", title)
        self.page.choose("command", "clip")
        self.assertTrue(self.page.run("return document.getElementById('gallery').hidden"))

    def test_windings_at_the_pointer(self):
        subject = "subject=0+0+9+0+9+9+0+9&subject=3+3+6+3+6+6+3+6"
        self.page.open(f"#{subject}&clip=5+5+5+12+12+12+12+5&run=overlay+Union+Positive")
        for point, said in (
            ((1, 8.5), "windings: subject 1 (filled), clip 0 (not filled)"),
            ((4, 4.5), "windings: subject 2 (filled), clip 0 (not filled)"),
            ((5.5, 5.5), "windings: subject 2 (filled), clip -1 (not filled)"),
            ((11, 1), "windings: subject 0 (not filled), clip 0 (not filled)"),
        ):
            self.page.hover(*point)
            self.assertIn(said, self.page.text("tip"))
        self.page.choose("command", "clip")
        self.page.hover(4, 4.5)
        self.assertEqual(self.page.text("tip"), "windings: subject 2 (filled)")

    def test_lens(self):
        self.page.example("snapping")
        self.page.choose("command", "overlay")
        self.page.choose("lens", True)
        self.page.until("return Boolean(polyover.state.answer.arrangement)")
        self.page.hover(1, 10)
        at = self.page.run("return polyover.board.hand.pixels")
        # (the ring of the lens has the accent's colour, its middle the ground's, where nothing is near)
        ring, beyond = (self.page.run(PIXEL, at[0] + 101, at[1]), self.page.run(PIXEL, at[0] + 112, at[1]))
        self.assertEqual(ring[:3], [0x0B, 0x6E, 0x75])
        self.assertNotEqual(beyond[:3], ring[:3])
        self.page.choose("lens", False)
        self.assertNotEqual(self.page.run(PIXEL, at[0] + 101, at[1])[:3], ring[:3])

    def test_both_solvers_side_by_side(self):
        self.page.example("needles")
        self.page.choose("solvers", True)
        self.page.until("return Boolean(polyover.state.answer.other)")
        kinds = "const { answer } = polyover.state; return [answer, answer.other].map((each) => each.name ?? each.kind)"
        self.assertEqual(self.page.run(kinds), ["shapes", "NotSettled"])
        self.page.choose("solver", "rounds")
        self.assertEqual(self.page.run(kinds), ["NotSettled", "shapes"])
        self.page.open(SQUARES)
        self.page.choose("solvers", True)
        self.page.until("return polyover.state.answer.other?.kind === 'shapes'")
        both = "const { answer } = polyover.state; return [answer.shapes, answer.other.shapes]"
        square = [[[[2, 4], [2, 2], [4, 2], [4, 4]]]]
        self.assertEqual(self.page.run(both), [square, square])
        # (a command that takes no solver has one pane)
        split = "return polyover.board.view.isSplit"
        self.assertTrue(self.page.run(split))
        self.page.choose("command", "locate")
        self.page.choose("fill", "evenodd")
        self.assertFalse(self.page.run(split))
        self.page.choose("solvers", False)

    def test_windings_are_exact(self):
        """Round points beside a long flat edge, nearer than floats tell, and of squares that just meet an edge."""
        far = 2**44
        flat, step = [[0, 0], [far, 1], [0, 2]], [0, 0, 64 * far, 64]
        diagonal = [0, 0, 640, 640]
        rows = [
            # (32 parts above 0, halfway along, the edge is at 32: one part more is above it, and one less below)
            ([flat, step, 32 * far, 33, 0], [1, False]),
            ([flat, step, 32 * far + 1, 32, 0], [0, False]),
            ([flat, step, 32 * far - 1, 32, 0], [1, False]),
            ([[[0, 0], [4, 4], [4, 0], [0, 4]], diagonal, 192, 128, 32], [0, True]),
            ([[[0, 0], [4, 4], [4, 0], [0, 4]], diagonal, 193, 128, 32], [-1, False]),
            ([[[0, 0], [4, 0], [4, 4], [0, 4]], [0, 0, 256, 0], 64, -32, 32], [0, True]),
            ([[[0, 0], [4, 0], [4, 4], [0, 4]], [0, 0, 256, 0], 64, -33, 32], [0, False]),
            ([[[0, 0], [0, 4], [4, 4], [4, 0]], [0, 0, 256, 0], 64, 33, 32], [-1, False]),
        ]
        found = self.page.run_later(ASKED, [row for row, _ in rows])
        for (row, wanted), got in zip(rows, found):
            if row[1] is not diagonal:
                self.assertEqual(got[0], wanted[0], row)
            self.assertEqual(got[1], wanted[1], row)

    def test_answers_are_checked(self):
        for name in ("picture", "stars", "hierarchy", "needles", "valid"):
            self.page.example(name)
            for rule in RULES:
                for fill in FILLS:
                    self.page.choose("rule", rule)
                    self.page.choose("fill", fill)
                    checked, agreed, left_out, wrong, _ = self.page.run_later(CHECKED, "")
                    self.assertEqual((agreed, wrong), (checked, None), (name, rule, fill))
                    self.assertEqual(checked, 10000, (name, rule, fill, left_out))

    def test_wrong_answers_are_seen(self):
        self.page.example("stars")
        for change in ("reversed", "moved"):
            checked, agreed, _, wrong, said = self.page.run_later(CHECKED, change)
            self.assertLess(agreed, checked)
            self.assertEqual(len(wrong), 2)
            self.assertIn("The first of the others is (", said)

    def test_check_is_told(self):
        self.page.press("#check")
        self.page.until("return document.getElementById('checked').dataset.found === 'same'")
        said = self.page.text("checked")
        count = "[0-9,]+"
        self.assertRegex(said, f"^10,000 of 10,000 points agree; the rules hold at {count} of them\\. ")
        self.assertRegex(said, f" Left out, nearer than half a unit to a contour: {count}\\.$")
        self.page.choose("minimumArea", "3")
        self.assertEqual(self.page.text("checked"), "")
        self.assertTrue(self.page.run("return document.getElementById('check-row').hidden"))
        self.page.choose("minimumArea", "0")
        self.page.choose("solver", "rounds")
        self.page.press("#check")
        self.page.until("return document.getElementById('checked').textContent.startsWith('No point was found')")
        self.assertIn("32 units, half of one for each of 64 rounds", self.page.text("checked"))


if __name__ == "__main__":
    unittest.main()
