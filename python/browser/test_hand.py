"""The hand on the board: points that are drawn, moved, added and deleted, by the mouse and by keys."""

import unittest

from .page import browser

SQUARES = "#subject=0+0+4+0+4+4+0+4&clip=2+2+6+2+6+6+2+6&run=overlay+Intersect+NonZero+ogc"
SQUARE = [[0, 0], [4, 0], [4, 4], [0, 4]]
# two contours, each of a number of points that is given
RINGS = """
    const { state } = polyover;
    const ring = (count, x) => Array.from({ length: count }, (_, at) => {
        const turn = (2 * Math.PI * at) / count, far = 1e6 * (1 + 0.2 * Math.sin(40 * turn));
        return [Math.round(x + far * Math.cos(turn)), Math.round(far * Math.sin(turn))];
    });
    const [subject, clip] = [[ring(arguments[0], 0)], [ring(arguments[0], 3e5)]];
    state.step({ figures: { ...state.figures, subject, clip } });
    polyover.board.fit();
"""
# the engine over workers that are told when to answer: the numbers of the drawings that were answered, and of each
# worker whether it was ended, and the numbers of the drawings that it was sent
ASKED = """
    const [done] = arguments, real = globalThis.Worker, workers = [], answered = [];
    globalThis.Worker = class {
        sent = [];
        isEnded = false;
        constructor() { workers.push(this); }
        postMessage({ asked }) { if (asked) this.sent.push(asked.number); }
        terminate() { this.isEnded = true; }
        answer() { this.onmessage({ data: { kind: "locations", locations: [], time: 0 } }); }
    };
    const drawing = (number) => ({ ...polyover.state.drawing, asked: { ...polyover.state.asked, number } });
    const until = async (holds) => { while (!holds()) await new Promise((later) => setTimeout(later, 20)); };
    import("./engine.js").then(async ({ Engine }) => {
        const engine = new Engine((answer) => answered.push(answer.drawing.asked.number));
        workers[0].onmessage({ data: { kind: "ready", built: "unproved" } });
        [1, 2, 3].forEach((number) => engine.ask(drawing(number)));
        workers[0].answer();
        engine.ask(drawing(4));
        await until(() => workers.length > 1);
        workers[0].answer();
        workers[1].answer();
        globalThis.Worker = real;
        done([answered, workers.map(({ isEnded, sent }) => [isEnded, sent])]);
    });
"""


class Hand(unittest.TestCase):
    """What is drawn after each gesture, and what is answered."""

    def setUp(self):
        self.page = browser()
        self.page.size()
        self.page.open(SQUARES)

    def test_drag_a_point(self):
        self.assertEqual(self.page.answer()["shapes"], [[[[2, 4], [2, 2], [4, 2], [4, 4]]]])
        self.page.drag((2, 2), (1.5, 1.7), (0.9, 1.2), (1.1, 0.8))
        self.assertEqual(self.page.figures()["clip"], [[[1, 1], [6, 2], [6, 6], [2, 6]]])
        self.assertNotEqual(self.page.answer()["shapes"], [[[[2, 4], [2, 2], [4, 2], [4, 4]]]])
        self.page.press("#undo-step")
        self.assertEqual(self.page.figures()["clip"], [[[2, 2], [6, 2], [6, 6], [2, 6]]])
        self.page.press("#redo-step")
        self.assertEqual(self.page.figures()["clip"][0][0], [1, 1])

    def test_points_snap_to_the_grid(self):
        self.page.choose("step", "5")
        self.page.drag((2, 2), (3, 2), (3.2, 1.1))
        self.assertEqual(self.page.figures()["clip"][0][0], [5, 0])

    def test_drag_a_contour(self):
        self.page.drag((5, 5), (5.5, 5), (7, 4))
        self.assertEqual(self.page.figures()["clip"], [[[4, 1], [8, 1], [8, 5], [4, 5]]])

    def test_drag_an_edge_adds_a_point(self):
        self.page.drag((0, 2), (-1, 2), (-2, 2))
        self.assertEqual(self.page.figures()["subject"], [[*SQUARE, [-2, 2]]])

    def test_delete_by_a_right_click(self):
        self.page.click(6, 6, "right")
        self.assertEqual(self.page.figures()["clip"], [[[2, 2], [6, 2], [2, 6]]])
        self.page.press("#undo-step")
        self.assertEqual(self.page.figures()["clip"], [[[2, 2], [6, 2], [6, 6], [2, 6]]])

    def test_delete(self):
        self.page.press('[data-tool="delete"]')
        self.page.click(0, 0)
        self.assertEqual(self.page.figures()["subject"], [[[4, 0], [4, 4], [0, 4]]])
        self.page.click(4, 1.5)
        self.assertEqual(self.page.figures()["subject"], [])
        for _ in range(2):
            self.page.press("#undo-step")
        self.assertEqual(self.page.figures()["subject"], [SQUARE])

    def test_draw(self):
        self.page.press('[data-kind="subject"]')
        for point in ((5, 0), (7, 0), (7, 1), (5, 0)):
            self.page.click(*point)
        self.assertEqual(self.page.figures()["subject"], [SQUARE, [[5, 0], [7, 0], [7, 1]]])
        self.page.press('[data-kind="line"]')
        for point in ((-1, 1), (3, 1), (3, 5)):
            self.page.click(*point)
        self.page.press("#undo-step")
        self.page.press("#finish")
        self.assertEqual(self.page.figures()["line"], [[[-1, 1], [3, 1]]])
        self.page.press('[data-kind="point"]')
        self.page.click(1, 1)
        self.assertEqual(self.page.figures()["point"], [[[1, 1]]])

    def test_keys(self):
        self.page.keys("n", "ArrowLeft", "ArrowDown")
        self.assertEqual(self.page.figures()["subject"][0][0], [-1, -1])
        self.page.keys("n", "i")
        self.assertEqual(len(self.page.figures()["subject"][0]), 5)
        self.page.keys("Delete")
        self.assertEqual(len(self.page.figures()["subject"][0]), 4)
        self.page.keys("p", "Backspace")
        self.assertEqual(len(self.page.figures()["subject"]) + len(self.page.figures()["clip"]), 1)
        self.page.keys("2", "ArrowLeft", " ", "ArrowRight", " ", "ArrowUp", " ", "Enter")
        drawn = self.page.figures()["clip"][-1]
        self.assertEqual([drawn[2][0] - drawn[0][0], drawn[2][1] - drawn[0][1]], [1, 1])

    def test_a_path_that_is_begun_is_undone(self):
        self.page.load(SQUARES)
        disabled = "return ['undo-step', 'redo-step'].map((id) => document.getElementById(id).disabled)"
        points = "return polyover.board.hand.begun?.points.length ?? 0"
        self.assertEqual(self.page.run(disabled), [True, True])
        self.page.press('[data-kind="clip"]')
        for point in ((5, 0), (7, 0), (7, 1)):
            self.page.click(*point)
        for count in (2, 1, 0):
            self.assertFalse(self.page.run(disabled)[0])
            self.page.press("#undo-step")
            self.assertEqual(self.page.run(points), count)
        self.assertEqual(self.page.run(disabled), [True, False])
        for count in (1, 2, 3):
            self.page.press("#redo-step")
            self.assertEqual(self.page.run(points), count)
        self.assertEqual(self.page.run(disabled), [False, True])
        self.page.press("#finish")
        self.assertEqual(self.page.figures()["clip"][-1], [[5, 0], [7, 0], [7, 1]])

    def test_keys_are_told(self):
        self.assertEqual(self.page.run("return document.getElementById('told').ariaLive"), "polite")
        for key, said in (
            ("n", "subject 1 of 1, point 1 of 4: (0, 0)."),
            ("ArrowLeft", "Moved to (-1, 0)."),
            ("p", "clip 1 of 1, point 4 of 4: (2, 6)."),
            ("i", "Added: clip 1 of 1, point 4 of 5: (4, 6)."),
            ("Delete", "Deleted: clip 1 of 1, point 4 of 5: (4, 6)."),
            ("x", "Tool: delete."),
            ("3", "Draw: line."),
        ):
            self.page.keys(key)
            self.assertEqual(self.page.text("told"), said)
        self.page.keys("ArrowUp")
        self.assertRegex(self.page.text("told"), r"^Cross at \(-?[0-9]+, -?[0-9]+\)\.$")
        self.page.keys(" ")
        self.assertRegex(self.page.text("told"), r"^Point 1 of a line at \(")
        self.page.keys("Enter")
        self.assertEqual(self.page.text("told"), "Too few points: dropped.")
        self.page.keys(" ", "ArrowUp", " ", "Enter")
        self.assertEqual(self.page.text("told"), "Finished: line of 2 points.")

    def test_look_at_a_shape(self):
        self.page.example("hierarchy")
        self.page.hover(6.5, 0.8)
        self.assertIn("Shape 0: area", self.page.text("tip"))
        self.page.hover(9.5, 9)
        self.assertIn("in a hole of shape 1", self.page.text("tip"))

    def test_zoom_and_move(self):
        before = self.page.run("return polyover.board.view.scale")
        self.page.press("#zoom-in")
        self.assertAlmostEqual(self.page.run("return polyover.board.view.scale"), before * 1.4)
        left = self.page.run("return polyover.board.view.x")
        self.page.drag((5, 1), (4, 1))
        self.assertAlmostEqual(self.page.run("return polyover.board.view.x"), left + 1, delta=0.1)
        self.assertEqual(self.page.figures()["subject"], [SQUARE])
        self.page.press("#zoom-fit")
        self.assertAlmostEqual(self.page.run("return polyover.board.view.scale"), before)

    def test_wheel_zooms_where_the_pointer_is(self):
        place = "return [polyover.board.view.scale, ...polyover.board.view.toPixels(6, 6)]"
        before = self.page.run(place)
        self.page.wheel(6, 6, -200)
        after = self.page.run(place)
        self.assertGreater(after[0], 1.3 * before[0])
        for wanted, found in zip(before[1:], after[1:]):
            self.assertAlmostEqual(found, wanted, delta=1)

    def test_fingers(self):
        scale = "return polyover.board.view.scale"
        before = self.page.run(scale)
        self.page.touch([(2, 3), (1.5, 3), (1, 3)], [(4, 3), (4.5, 3), (5, 3)])
        self.assertAlmostEqual(self.page.run(scale), 2 * before, delta=before / 10)
        self.assertEqual(self.page.figures()["subject"], [SQUARE])
        self.page.press("#zoom-fit")
        # (a finger takes points from further than a mouse does)
        self.page.touch([(4, 0), (4.5, 0.5), (5, 1)])
        self.assertEqual(self.page.figures()["subject"], [[[0, 0], [5, 1], [4, 4], [0, 4]]])

    def test_double_click_adds_a_point(self):
        self.page.double_click(3, 0)
        self.assertEqual(self.page.figures()["subject"], [[[0, 0], [3, 0], [4, 0], [4, 4], [0, 4]]])
        self.page.press('[data-kind="line"]')
        self.page.click(-1, 1)
        self.page.click(3, 1)
        self.page.double_click(5, 1)
        self.assertEqual(self.page.figures()["line"], [[[-1, 1], [3, 1], [5, 1]]])

    def test_all_stays_in_sight_when_the_window_changes(self):
        view = "return [polyover.board.view.scale, polyover.board.view.x, polyover.board.view.y]"
        before = self.page.run(view)
        self.page.size(900, 500)
        self.assertLess(self.page.run(view)[0], before[0])
        self.page.size()
        self.assertEqual(self.page.run(view), before)
        # (a zoomed view stays as it is)
        self.page.press("#zoom-in")
        zoomed = self.page.run(view)
        self.page.size(900, 500)
        self.assertEqual(self.page.run(view), zoomed)

    def test_coarser(self):
        self.page.press("#coarser")
        self.assertEqual(self.page.figures()["subject"], [[[0, 0], [2, 0], [2, 2], [0, 2]]])
        self.page.press("#finer")
        self.assertEqual(self.page.figures()["subject"], [SQUARE])

    def test_many_points_stay_fluid(self):
        self.page.run(RINGS, 10000)
        self.page.wait()
        self.page.drag((1e6, 0), (1.1e6, 1e5), (1.2e6, 2e5), (1.3e6, 1e5))
        self.assertEqual(self.page.answer()["kind"], "shapes")

    def test_the_latest_drawing_wins(self):
        answered, workers = self.page.run_later(ASKED)
        # (the second gave way to the third, and that one after a while to the fourth: its answer came too late)
        self.assertEqual(answered, [1, 4])
        self.assertEqual(workers, [[True, [1, 3]], [False, [4]]])

    def test_more_points_are_answered_by_a_button(self):
        self.page.run(RINGS, 10001)
        # (an answer that was on its way is of another drawing)
        self.page.until("return !polyover.engine.isBusy")
        self.page.frames()
        self.assertIn("20,002 points", self.page.text("summary"))
        self.assertIsNone(self.page.run("return polyover.state.answer"))
        self.page.press("#ask-now")
        answer = self.page.answer()
        self.assertEqual(answer["kind"], "shapes")
        # (neither a look nor a press that changes nothing drops it)
        self.page.choose("beside", True)
        self.page.choose("beside", False)
        self.page.click(-1.15e6, 1.15e6)
        self.assertEqual(self.page.answer(), answer)
        self.page.choose("nodes", True)
        self.assertGreater(len(self.page.answer()["nodes"]), 20000)


if __name__ == "__main__":
    unittest.main()
