"""How the board is painted: in time, no more than is seen, by each fill rule; and the sign while an answer is made."""

import re
import unittest

from .page import ROOT, browser
from .test_answers import LATER
from .test_hand import RINGS, SQUARES

# the milliseconds of a frame
FRAME = 16
# the milliseconds that painting takes: of a view that has moved, and of one that has not
MOVED = """
    const { board } = polyover, now = performance.now();
    board.view.pan(arguments[0], 0);
    board.paint();
    return performance.now() - now;
"""
STILL = """
    const { board } = polyover, now = performance.now();
    board.paint();
    board.canvas.getContext("2d").getImageData(0, 0, 1, 1);
    return performance.now() - now;
"""
# of a scribble seen in part: how many points its way has, and at how many pixels of the pane it winds otherwise
CULLED = """
    const [done] = arguments;
    Promise.all([import("./trace.js"), import("./view.js")]).then(([{ wayOf }, { View }]) => {
        const view = Object.assign(new View(), { width: 400, height: 300, scale: 1, x: 0, y: 0 });
        let seed = 1;
        const next = () => (seed = (seed * 48271) % 2147483647) / 2147483647;
        const coordinate = () => Math.round(4000 * next() - 2000);
        const path = Array.from({ length: 3000 }, () => [coordinate(), coordinate()]);
        const winding = (points, x, y) => points.reduce((sum, [bx, by], at) => {
            const [ax, ay] = points[at ? at - 1 : points.length - 1];
            const side = (bx - ax) * (y - ay) - (by - ay) * (x - ax);
            return sum + (ay <= y && by > y && side > 0 ? 1 : ay > y && by <= y && side < 0 ? -1 : 0);
        }, 0);
        const way = wayOf(view, path);
        const seen = Array.from({ length: way.length / 2 }, (_, at) => [way[2 * at], way[2 * at + 1]]);
        const all = path.map(([x, y]) => view.toPixels(x, y));
        let others = 0;
        for (let at = 0; at < 300; at++) {
            const [x, y] = [400 * next(), 300 * next()];
            others += winding(seen, x, y) !== winding(all, x, y);
        }
        const beyond = wayOf(view, [[900, 0], [1900, 0], [1900, 99]]);
        done([seen.length, others, beyond.length]);
    });
"""
LAYERS = """
    const { board } = polyover, painted = [];
    for (const [name, layer] of Object.entries(board.layers)) {
        const context = layer.canvas.getContext("2d"), before = context.clearRect;
        context.clearRect = function (...words) { painted.push(name); before.apply(this, words); };
    }
    const told = () => (board.paint(), painted.splice(0));
    const { state } = polyover;
    const found = [told(), (board.hand.pointer = [1, 1], told()), (state.piece = 0, told())];
    found.push((board.view.pan(1, 0), told()), (board.colours = { ...board.colours }, told()));
    state.piece = null;
    return found;
"""
COLOUR = re.compile(r"^ *--(\w[\w-]*): (#[0-9a-f]{6});$", re.MULTILINE)
MARKS = ("subject", "clip", "answer", "line", "point", "inside", "boundary", "outside", "edge", "before", "node")
NEVER = "engine.worker.postMessage = () => {}; state.step({ figures: next });"


def shine(colour):
    """The luminance of a colour, by WCAG."""
    parts = [int(colour[at : at + 2], 16) / 255 for at in (1, 3, 5)]
    linear = [each / 12.92 if each <= 0.03928 else ((each + 0.055) / 1.055) ** 2.4 for each in parts]
    return sum(weight * each for weight, each in zip((0.2126, 0.7152, 0.0722), linear))


def contrast(one, other):
    """The contrast of two colours, by WCAG."""
    low, high = sorted((shine(one), shine(other)))
    return (high + 0.05) / (low + 0.05)


class Paint(unittest.TestCase):
    """The board, as it is painted."""

    def setUp(self):
        self.page = browser()
        self.page.size()
        self.page.open(SQUARES)

    def test_many_points_are_painted_within_a_frame(self):
        self.page.run(RINGS, 10000)
        self.page.wait()
        # (a busy machine is asked until it has a moment for it)
        self.assertTrue(any(self.page.run(MOVED, (-1) ** at) < FRAME for at in range(400)))
        self.assertLess(min(self.page.run(STILL) for _ in range(9)), FRAME)

    def test_what_is_not_seen_is_left_out(self):
        count, others, beyond = self.page.run_later(CULLED)
        self.assertLess(count, 2900)
        self.assertEqual((others, beyond), (0, 0))

    def test_layers_are_painted_where_they_change(self):
        self.page.run("polyover.board.paint()")
        every = ["ground", "answer", "over"]
        self.assertEqual(self.page.run(LAYERS), [[], [], ["answer"], every, every])
        self.page.load(SQUARES)

    def test_each_fill_rule_has_its_own_paint(self):
        """A square that winds twice in its middle, beside one that winds the other way."""
        subject = "subject=0+0+9+0+9+9+0+9&subject=3+3+6+3+6+6+3+6&subject=12+0+12+9+21+9+21+0"
        for fill, wanted in (
            ("EvenOdd", (True, False, True)),
            ("NonZero", (True, True, True)),
            ("Positive", (True, True, False)),
            ("Negative", (False, False, True)),
        ):
            # (the clip's rule: nothing of the answer lies over the subject)
            self.page.open(f"#{subject}&clip=30+0+33+0+33+3&run=overlay+Clip+{fill}+ogc")
            ground = self.page.colour(10.5, 8.5)
            found = tuple(self.page.colour(*at) != ground for at in ((1.5, 1.5), (4.5, 4.5), (16.5, 4.5)))
            self.assertEqual(found, wanted, fill)

    def test_marks_have_contrast(self):
        for theme in ("theme", "dark"):
            colours = dict(COLOUR.findall((ROOT / "docs" / "play" / f"{theme}.css").read_text()))
            for mark in (*MARKS, "accent", "label"):
                for under in ("ground", "panel"):
                    found = contrast(colours.get(f"{mark}-ink", colours[mark]), colours[under])
                    self.assertGreaterEqual(found, 4.5, (theme, mark))


class Busy(unittest.TestCase):
    """An answer that takes a while has a sign, and can be cancelled."""

    def setUp(self):
        self.page = browser()
        self.page.size()
        self.page.load(SQUARES)
        self.page.until("return polyover.engine.isReady")

    def test_sign_and_cancel(self):
        self.assertTrue(self.page.run("return document.getElementById('busy').hidden"))
        self.page.run(LATER + NEVER, 20)
        self.page.until("return !document.getElementById('busy').hidden")
        self.page.run("document.getElementById('busy-cancel').click()")
        self.page.until("return polyover.state.answer?.name === 'Cancelled'")
        self.page.frames()
        self.assertTrue(self.page.run("return document.getElementById('busy').hidden"))
        self.assertIn("The question was cancelled", self.page.text("answer"))
        self.page.press("#answer .fault button")
        self.assertEqual(self.page.answer()["kind"], "shapes")

    def test_fresh_worker_after_a_fault(self):
        for name in ("RuntimeError", "OutOfMemory", "PolyoverError"):
            told = f"engine.receive({{ kind: 'fault', name: '{name}', message: '', time: 0 }});"
            self.page.run(LATER + "polyover.before = engine.worker; state.step({ figures: next });" + told, 20)
            self.page.until("return polyover.engine.worker !== polyover.before")
            self.page.run(LATER + "state.step({ figures: next });", 30)
            self.assertEqual(self.page.answer()["kind"], "shapes")
        # (one that the drawing alone is to blame for leaves it)
        self.page.until("return polyover.engine.isReady")
        self.page.run("polyover.before = polyover.engine.worker")
        self.page.example("refused")
        self.assertEqual(self.page.answer()["name"], "NotSettled")
        self.assertTrue(self.page.run("return polyover.engine.worker === polyover.before"))


if __name__ == "__main__":
    unittest.main()
