"""How the page looks, and what it asks for: nothing of any host, and no message in the console."""

import json
import re
import subprocess
import sys
import tempfile
import unittest
from http.client import HTTPConnection
from pathlib import Path

from polyover.picture import COLOURS

from .page import ENGINE, ROOT, browser

SQUARES = "#subject=0+0+4+0+4+4+0+4&clip=2+2+6+2+6+6+2+6&run=overlay+Intersect+NonZero+ogc"
TEXTS = {".js", ".css", ".html"}
ADDRESS = re.compile(r"https?://[^\s\"'`)]+")
COLOUR = re.compile(r"^ *--(\w[\w-]*): (#[0-9a-f]{6});$", re.MULTILINE)
PRINTED = re.compile(r'^ *(\w+): "(#[0-9a-f]{6})",$', re.MULTILINE)
# (of the language of pictures, which nobody asks for)
NAMES = {"http://www.w3.org/2000/svg"}
# what the page in one file holds
HELD = re.compile(r"POLYOVER_HELD = (\{.*?\});")
WIDTHS = ((1600, 1000), (1000, 760), (400, 860))
SCHEME = "return getComputedStyle(document.documentElement).colorScheme"
# whether a theme is shown, and the board has its colours
THEMED = """
    const { board } = polyover, [theme] = arguments;
    const ground = getComputedStyle(board.canvas).getPropertyValue("--ground").trim();
    return getComputedStyle(document.documentElement).colorScheme === theme && board.colours.ground === ground;
"""
OVERFLOW = "return [document.documentElement.scrollWidth, innerWidth]"
# parts that have to be seen whole
SEEN = "#board, #summary, #ask, #answer, #call, #example, #link, #save, [data-tool], [data-kind]"
OUT_OF_SIGHT = f"""
    return [...document.querySelectorAll("{SEEN}")]
        .filter((each) => {{
            const {{ left, right, width, height }} = each.getBoundingClientRect();
            return left < 0 || right > innerWidth + 0.5 || !width || !height;
        }})
        .map((each) => each.outerHTML.slice(0, 80));
"""
# texts that reach beyond the window, a button, or a part that hides or scrolls them; a call's text may be scrolled
CUT = """
    const found = [], walker = document.createTreeWalker(document.body, NodeFilter.SHOW_TEXT);
    while (walker.nextNode()) {
        const { parentElement: parent, data } = walker.currentNode, range = document.createRange();
        range.selectNodeContents(walker.currentNode);
        const { left, right, width } = range.getBoundingClientRect();
        if (!data.trim() || !width || parent.closest("select, pre, .unseen")) continue;
        for (let box = parent; box; box = box.parentElement) {
            const { left: from, right: to } = box.getBoundingClientRect();
            const isBorder = box.matches("button, body") || getComputedStyle(box).overflowX !== "visible";
            if (isBorder && (left < from - 0.5 || right > to + 0.5)) found.push(data.trim().slice(0, 40));
        }
    }
    return found;
"""
# the least contrast of a text with its ground, by WCAG; a ground that lets some of another through is mixed with it
CONTRAST = """
    const numbers = (colour) => {
        const found = colour.match(/[0-9.]+/g).map(Number), times = colour.startsWith("color(") ? 255 : 1;
        return [...found.slice(0, 3).map((each) => each * times), found[3] ?? 1];
    };
    const shine = (colour) => colour
        .map((each) => each / 255)
        .map((each) => (each <= 0.03928 ? each / 12.92 : ((each + 0.055) / 1.055) ** 2.4))
        .reduce((sum, each, at) => sum + each * [0.2126, 0.7152, 0.0722][at], 0);
    const over = (colour, under) =>
        colour.slice(0, 3).map((each, at) => colour[3] * each + (1 - colour[3]) * under[at]);
    const ground = (each) => {
        if (!each) return [255, 255, 255];
        const colour = numbers(getComputedStyle(each).backgroundColor);
        return colour[3] === 1 ? colour.slice(0, 3) : over(colour, ground(each.parentElement));
    };
    const found = [], walker = document.createTreeWalker(document.body, NodeFilter.SHOW_TEXT);
    while (walker.nextNode()) {
        const { parentElement, data } = walker.currentNode;
        const parent = parentElement.closest("select") ?? parentElement;
        if (!data.trim() || !parent.getBoundingClientRect().width || parent.closest(":disabled, script")) continue;
        const under = ground(parent), text = over(numbers(getComputedStyle(parent).color), under);
        const [low, high] = [text, under].map(shine).sort((a, b) => a - b);
        found.push([(high + 0.05) / (low + 0.05), data.trim().slice(0, 40)]);
    }
    return [...found.sort(([a], [b]) => a - b)[0], found.length];
"""
# shows all that comes over the board or the page at times
OVERLAID = """
    for (const name of ["tip", "begun", "notice", "busy", "turning"]) document.getElementById(name).hidden = false;
    for (const name of ["tip", "notice", "checked", "place", "call-note", "turning-told"]) {
        document.getElementById(name).textContent ||= "something";
    }
    document.querySelector("#begun span").textContent ||= "something";
    for (const name of ["promise", "help"]) document.getElementById(name).setAttribute("open", "");
"""


class Look(unittest.TestCase):
    """The page at several widths, in both themes."""

    def setUp(self):
        self.page = browser()

    def test_widths_and_themes(self):
        for is_dark in (False, True):
            for width, height in WIDTHS:
                with self.subTest(width=width, is_dark=is_dark):
                    self.page.size(width, height, is_dark)
                    self.page.load(SQUARES)
                    self.assertEqual(self.page.run(SCHEME), "dark" if is_dark else "light")
                    across, room = self.page.run(OVERFLOW)
                    self.assertLessEqual(across, room)
                    self.assertEqual(self.page.run(OUT_OF_SIGHT), [])
                    contrast, part, count = self.page.run(CONTRAST)
                    self.assertGreaterEqual(contrast, 4.5, part)
                    self.assertGreater(count, 60)

    def test_all_texts_have_contrast(self):
        """Each text, also over the board, in boxes, of a refusal, and of what a check has found."""
        for is_dark in (False, True):
            self.page.size(is_dark=is_dark)
            self.page.load(SQUARES)
            for name in ("picture", "refused", "relate", "locate", "snapping"):
                self.page.example(name)
                self.page.run(OVERLAID)
                contrast, part, count = self.page.run(CONTRAST)
                self.assertGreaterEqual(contrast, 4.5, (is_dark, name, part))
                self.assertGreater(count, 100)
        self.page.load()

    def test_no_text_is_cut_off(self):
        for width, height in WIDTHS:
            self.page.size(width, height)
            self.page.load()
            for name in ("stars", "hierarchy", "refused", "relate", "clip"):
                self.page.example(name)
                self.assertEqual(self.page.run(CUT), [], (width, name))

    def test_answer_and_call_are_above_the_fold(self):
        low = """
            return ["answer", "call", "board"].map((id) => document.getElementById(id).getBoundingClientRect().bottom);
        """
        for width, height in ((1600, 1000), (1000, 760)):
            for part in ("", SQUARES):
                self.page.size(width, height)
                self.page.load(part)
                self.assertLessEqual(max(self.page.run(low)), height, (width, part))

    def test_all_relations_are_seen(self):
        hidden = "const { scrollHeight, clientHeight } = document.querySelector('.relations');"
        for width, height in WIDTHS:
            self.page.size(width, height)
            self.page.load()
            self.page.example("relate")
            self.assertEqual(self.page.run(hidden + "return scrollHeight - clientHeight"), 0, width)

    def test_theme_is_switched_and_kept(self):
        for is_dark in (False, True):
            first, other = ("dark", "light") if is_dark else ("light", "dark")
            self.page.size(is_dark=is_dark)
            self.page.load(SQUARES)
            before = self.page.colour(-0.5, 5.5)
            self.page.press("#theme-switch")
            self.page.until(THEMED, other)
            after = self.page.colour(-0.5, 5.5)
            light, dark = (after, before) if is_dark else (before, after)
            self.assertGreater(sum(light[:3]), 600)
            self.assertLess(sum(dark[:3]), 200)
            self.page.refresh()
            self.page.until(THEMED, other)
            self.assertEqual(self.page.colour(-0.5, 5.5), after)
            self.page.press("#theme-switch")
            self.page.until(THEMED, first)
            self.assertEqual(self.page.colour(-0.5, 5.5), before)
        self.page.leave()

    @unittest.skipIf(ENGINE == "WebKit", "WebKitGTK takes its theme as it starts")
    def test_theme_of_the_system_is_followed(self):
        self.page.size()
        self.page.load(SQUARES)
        for is_dark in (True, False):
            self.page.size(is_dark=is_dark)
            self.assertEqual(self.page.run(SCHEME), "dark" if is_dark else "light")
            self.assertEqual(sum(self.page.colour(-0.5, 5.5)[:3]) < 200, is_dark)

    def test_drawn_colours(self):
        self.page.size()
        self.page.open(SQUARES)
        ground, subject, clip, both = (self.page.colour(*at) for at in ((5.5, 0.5), (0.5, 0.5), (5.5, 5.5), (3.5, 3.5)))
        self.assertEqual(ground[:3], [255, 255, 255])
        # (blue, orange, and green over both)
        self.assertGreater(subject[2], subject[0] + 20)
        self.assertGreater(clip[0], clip[2] + 20)
        self.assertGreater(both[1], max(both[0], both[2]))

    def test_beside(self):
        self.page.size()
        self.page.open(SQUARES)
        over = self.page.colour(3.5, 3.5)
        self.page.choose("beside", True)
        beside = self.page.colour(3.5, 3.5)
        self.assertNotEqual(over, beside)
        right = self.page.run(
            """
            const { board } = polyover, [x, y] = board.view.toPixels(3.5, 3.5);
            return [...board.canvas.getContext("2d").getImageData(x + board.view.paneWidth, y, 1, 1).data];
            """
        )
        self.assertGreater(right[1], max(right[0], right[2]))

    def test_summary_is_told(self):
        self.page.size()
        self.page.open(SQUARES)
        self.assertEqual(self.page.text("summary"), "overlay: 1 shape, 0 holes, area 4")
        self.assertEqual(self.page.run("return document.getElementById('summary').ariaLive"), "polite")

    def test_every_control_has_a_name(self):
        nameless = """
            return [...document.querySelectorAll("button, select, input:not([hidden]), canvas:not([aria-hidden])")]
                .filter((each) => !(each.textContent.trim() && each.matches("button")))
                .filter((each) => !each.ariaLabel && !each.labels?.length)
                .map((each) => each.outerHTML.slice(0, 80));
        """
        self.assertEqual(self.page.run(nameless), [])


class Alone(unittest.TestCase):
    """What the page asks for."""

    def test_nothing_of_any_host(self):
        page = browser()
        page.size()
        page.load(SQUARES)
        page.choose("command", "edges")
        page.drag((2, 2), (1, 1))
        asked = [each for each in page.requests() if not each.startswith(("data:", "about:"))]
        self.assertEqual([each for each in asked if not each.startswith(page.base)], [])
        self.assertIn("/engine/polyover.wasm", page.paths)
        self.assertEqual(page.messages(), [])

    def test_no_file_names_a_host(self):
        folders = ROOT / "docs" / "play", ROOT / "js"
        for file in (each for folder in folders for each in folder.glob("**/*") if each.suffix in TEXTS):
            if "node_modules" not in file.parts and "tests" not in file.parts:
                found = [each for each in ADDRESS.findall(file.read_text()) if each not in NAMES]
                self.assertEqual(found, [], file)

    def test_colours_of_pictures_are_those_of_the_light_theme(self):
        play = ROOT / "docs" / "play"
        theme, dark = (dict(COLOUR.findall((play / f"{name}.css").read_text())) for name in ("theme", "dark"))
        printed = dict(PRINTED.findall((play / "palette.js").read_text()))
        self.assertEqual({name: theme[name] for name in printed}, printed)
        self.assertEqual({name: printed[name] for name in COLOURS}, COLOURS)
        self.assertEqual(set(dark), set(theme))

    def test_one_file(self):
        page = browser()
        with tempfile.TemporaryDirectory() as folder:
            file = Path(folder) / "play.html"
            words = [sys.executable, "-m", "polyover", "play", "--out", str(file)]
            subprocess.run(words, cwd=ROOT / "python", check=True)
            held = json.loads(HELD.search(file.read_text())[1])
            self.assertLess(len(held["worker"]), 2_000_000, "Chromium takes no longer address")
            page.size()
            page.load(SQUARES, file.as_uri())
            self.assertEqual(page.answer()["shapes"], [[[[2, 4], [2, 2], [4, 2], [4, 4]]]])
            page.drag((2, 2), (1, 1))
            self.assertEqual(page.figures()["clip"][0][0], [1, 1])
            if ENGINE == "Chromium":
                asked = [each for each in page.requests() if not each.startswith(("data:", "about:"))]
                self.assertEqual({each.partition("#")[0] for each in asked}, {file.as_uri()})
                self.assertEqual(page.messages(), [])

    def test_ports_that_cannot_be_served(self):
        taken = browser().server.server_address[1]
        for port, status, said in ((taken, 1, "in use"), (65536, 2, "invalid port"), (-1, 2, "invalid port")):
            words = [sys.executable, "-m", "polyover", "play", "--port", str(port)]
            ran = subprocess.run(words, cwd=ROOT / "python", capture_output=True, text=True, check=False)
            self.assertEqual((ran.returncode, ran.stdout), (status, ""))
            self.assertIn(said, ran.stderr)
            self.assertNotIn("Traceback", ran.stderr)

    def test_the_server_answers_for_the_page_alone(self):
        host, port = browser().server.server_address
        self.assertEqual(host, "127.0.0.1")
        paths = {
            "/": 200,
            "/engine/polyover.js": 200,
            "/engine/": 404,
            "/calls/": 404,
            "/../PYTHON.md": 404,
            "/%2e%2e/PYTHON.md": 404,
            "/engine/../../docs/PYTHON.md": 404,
        }
        for path, status in paths.items():
            connection = HTTPConnection(host, port)
            connection.request("GET", path)
            self.assertEqual(connection.getresponse().status, status, path)
            connection.close()


if __name__ == "__main__":
    unittest.main()
