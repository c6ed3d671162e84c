"""The page in a browser: what a test does with it, and what it sees."""

import atexit
import os
import re
import socket
import threading
import time
from functools import lru_cache
from importlib import import_module
from pathlib import Path

from polyover.play import HOST, page, server_of

ROOT = Path(__file__).resolve().parents[2]
NAMES = re.compile(r'^ +name: "(\w+)",$', re.MULTILINE)
EXAMPLES = NAMES.findall((ROOT / "docs" / "play" / "examples.js").read_text())
# a subject with a hole, a clip, lines and points: something for each command
DRAWN = (
    "#subject=0+0+10+0+10+8+0+8&subject=2+2+2+6+6+6+6+2&clip=4+-2+14+3+5+11&line=-2+3+12+4&line=2+6+6+6+9+9"
    "&point=1+1&point=4+4&point=10+4&run=overlay+Union+NonZero+ogc"
)
# the browser: Chromium, Firefox or WebKit
ENGINE = os.environ.get("POLYOVER_BROWSER", "Chromium")
# how many seconds an answer may take on a machine that is busy
PATIENCE = 120
# (an address that keeps nothing refuses it)
FORGOTTEN = "try { localStorage.clear(); } catch { }"
SETTLED = "return !polyover.engine.isBusy && polyover.state.answer?.drawing === polyover.state.drawing"
# whether the window has a size, and the board of the page, if it is there, has taken its own of that
SIZED = """
    const { board } = globalThis.polyover ?? {};
    const { width, height } = board?.canvas.getBoundingClientRect() ?? {};
    const isTaken = !board || (board.view.width === Math.round(width) && board.view.height === Math.round(height));
    return isTaken && innerWidth === arguments[0] && innerHeight === arguments[1];
"""
SHOWN = """
    const { kind, shapes, links, paths, edges, relations, locations, name, nodes } = polyover.state.answer;
    return { kind, shapes, links, paths, edges, relations, locations, name, nodes };
"""
COLOUR = """
    const [x, y] = arguments, { board } = polyover;
    board.paint();
    const [left, top] = board.view.toPixels(x, y).map((each) => Math.round(each * board.dense));
    return [...board.canvas.getContext("2d").getImageData(left, top, 1, 1).data];
"""
PLACE = """
    const [x, y] = arguments, { board } = polyover;
    const { left, top } = board.canvas.getBoundingClientRect();
    const [right, down] = board.view.toPixels(x, y);
    return [left + right, top + down];
"""


def recorded(server):
    """The paths that a server is asked for, as they come."""
    paths = []
    finish = server.finish_request

    def finish_request(request, client):
        head = request.recv(4096, socket.MSG_PEEK).split(b" ")
        paths.append(head[1].decode() if len(head) > 1 else "")
        finish(request, client)

    server.finish_request = finish_request
    return paths


def engine_of(name):
    """The browser of a name."""
    # (each needs what another does not)
    module = import_module(f".{name.lower()}", __package__)
    return getattr(module, name)(PATIENCE)


class Browser:
    """A browser that shows the page, which is served on this machine."""

    def __init__(self):
        self.server = server_of(page())
        self.paths = recorded(self.server)
        threading.Thread(target=self.server.serve_forever, daemon=True).start()
        self.base = f"http://{HOST}:{self.server.server_address[1]}/"
        self.engine = engine_of(ENGINE)

    def end(self):
        """Ends the browser and the server."""
        self.engine.end()
        self.server.shutdown()
        self.server.server_close()

    # ---- what is opened

    def size(self, width=1200, height=800, is_dark=False, is_moving=False):
        """Gives the window a size, and the system a theme; and says whether it asks for reduced motion."""
        self.engine.emulate(width, height, is_dark, is_moving)
        self.until(SIZED, width, height)
        self.frames()

    def leave(self):
        """Leaves the page, with all that it keeps, and forgets its messages and requests."""
        self.run(FORGOTTEN)
        self.engine.get("about:blank")
        if ENGINE == "Chromium":
            self.engine.requests()
            self.engine.messages()

    def load(self, part="", address=None):
        """Loads the page anew, with a hash, and waits for its first answer."""
        self.leave()
        self.engine.get((address or self.base) + part)
        self.wait()

    def open(self, part):
        """Shows the drawing of a hash, in the page that is loaded if it is."""
        if not self.run("return location.href").startswith(self.base):
            return self.load(part)
        script = """
            polyover.state.take({ tool: "edit" });
            polyover.state.look({ beside: false });
            history.replaceState(null, "", arguments[0]);
            window.dispatchEvent(new HashChangeEvent("hashchange"));
        """
        self.run(script, part)
        return self.wait()

    def example(self, name):
        """Shows an example."""
        script = """
            const select = document.getElementById("example");
            select.value = arguments[0];
            select.dispatchEvent(new Event("change"));
        """
        self.run(script, name)
        self.wait()

    def choose(self, name, value):
        """Gives a field of what is asked, or shown, a value."""
        script = """
            const [name, value] = arguments;
            const field = document.getElementById("ask").elements.namedItem(name);
            if (typeof value === "boolean") field.checked = value;
            else field.value = value;
            field.dispatchEvent(new Event("change"));
        """
        self.run(script, name, value)
        self.wait()

    # ---- what is seen

    def run(self, script, *words):
        """What a script answers."""
        return self.engine.run(script, *words)

    def run_later(self, script, *words):
        """What a script calls its last argument with."""
        return self.engine.run_later(script, *words)

    def refresh(self):
        """Loads the page anew, as it is, and waits for its answer."""
        self.engine.refresh()
        self.wait()

    def until(self, script, *words):
        """Waits until a script answers what is true."""
        end = time.monotonic() + PATIENCE
        while not self.run(script, *words):
            if time.monotonic() > end:
                raise AssertionError(f"not within {PATIENCE} seconds: {script}")
            time.sleep(0.02)

    def wait(self):
        """Waits until the answer is that of what is drawn, and is told."""
        self.until("return Boolean(globalThis.polyover)")
        self.until(SETTLED)
        self.frames()

    def frames(self):
        """Waits for two frames, so that the page has painted."""
        self.run_later("requestAnimationFrame(() => requestAnimationFrame(arguments[0]))")

    def answer(self):
        """The answer, once it is that of what is drawn."""
        self.wait()
        return {name: value for name, value in self.run(SHOWN).items() if value is not None}

    def figures(self):
        """What is drawn."""
        return self.run("return polyover.state.figures")

    def text(self, name):
        """The text of an element."""
        return self.run("return document.getElementById(arguments[0]).textContent", name)

    def colour(self, x, y):
        """The colour of the board at a point: red, green, blue and how opaque it is."""
        return self.run(COLOUR, x, y)

    def messages(self):
        """What the console holds, since it was asked last."""
        return self.engine.messages()

    def requests(self):
        """The addresses that were asked for, since this was asked last."""
        return self.engine.requests()

    # ---- the hand

    def mouse(self, kind, x, y, button="left"):
        """Presses a button of the mouse at a point of the drawing (`down`), leaves it (`up`), or moves it (`move`)."""
        self.engine.mouse(kind, *self.run(PLACE, x, y), button)

    def drag(self, start, *others):
        """Drags from a point through others."""
        self.mouse("down", *start)
        for each in others:
            self.mouse("move", *each)
        self.mouse("up", *(others or [start])[-1])
        self.wait()

    def click(self, x, y, button="left"):
        """Clicks at a point."""
        self.mouse("down", x, y, button)
        self.mouse("up", x, y, button)
        self.wait()

    def double_click(self, x, y):
        """Clicks twice at a point."""
        self.engine.double_click(*self.run(PLACE, x, y))
        self.wait()

    def wheel(self, x, y, down):
        """Turns the wheel over a point, by some pixels."""
        self.engine.wheel(*self.run(PLACE, x, y), down)
        self.wait()

    def touch(self, *places):
        """Moves fingers, each by a list of points, and lifts them."""
        ways = [[dict(zip("xy", self.run(PLACE, *point))) for point in points] for points in places]
        for at, points in enumerate(zip(*ways)):
            self.engine.touch("touchMove" if at else "touchStart", list(points))
        self.engine.touch("touchEnd", [])
        self.wait()

    def hover(self, x, y):
        """Moves the pointer to a point."""
        self.mouse("move", x, y, "none")
        self.wait()

    def press(self, selector):
        """Presses a button of the page."""
        self.run("document.querySelector(arguments[0]).click()", selector)
        self.wait()

    def keys(self, *keys):
        """Presses keys on the board."""
        script = """
            const canvas = polyover.board.canvas;
            canvas.focus();
            for (const key of arguments) canvas.dispatchEvent(new KeyboardEvent("keydown", { key, bubbles: true }));
        """
        self.run(script, *keys)
        self.wait()

    def saved(self, what):
        """The text that is saved under a name of the menu."""
        script = """
            const [what, done] = arguments, made = URL.createObjectURL, click = HTMLAnchorElement.prototype.click;
            HTMLAnchorElement.prototype.click = () => {};
            URL.createObjectURL = (blob) => (blob.text().then(done), made.call(URL, blob));
            document.querySelector(`[data-save="${what}"]`).click();
            URL.createObjectURL = made;
            HTMLAnchorElement.prototype.click = click;
        """
        return self.run_later(script, what)

    def give(self, name, text):
        """Opens a file of a name and a text. (Once the page has taken it, its field is empty.)"""
        self.give_several([[name, text]])

    def give_several(self, files):
        """Opens files at once, each a name and a text."""
        script = """
            const given = new DataTransfer();
            for (const [name, text] of arguments[0]) given.items.add(new File([text], name));
            const field = document.getElementById("file");
            field.files = given.files;
            field.dispatchEvent(new Event("change"));
        """
        self.run(script, files)
        self.until("return document.getElementById('file').files.length === 0")
        self.wait()

    def give_made(self, name, made, *words):
        """Opens a file of a name, whose text a function of the browser makes; the answer may be still to come."""
        script = f"const text = ({made})(...[...arguments].slice(1));" """
            const given = new DataTransfer();
            given.items.add(new File([text], arguments[0]));
            const field = document.getElementById("file");
            field.files = given.files;
            field.dispatchEvent(new Event("change"));
        """
        self.run(script, name, *words)
        self.until("return document.getElementById('file').files.length === 0")


@lru_cache
def browser():
    """The browser of all tests."""
    made = Browser()
    atexit.register(made.end)
    return made
