"""Pictures of the board, in two sheets: python/browser/light.png and dark.png.

A picture is the board at a size that no font and no other part of the page changes, and without the labels of the grid.
It is made small: each pixel is the mean of four by four of the board.
"""

from base64 import b64decode, b64encode
from pathlib import Path

from .page import DRAWN, EXAMPLES

HERE = Path(__file__).resolve().parent
THEMES = {"light": False, "dark": True}
# another pixel is one in which a colour differs by more than the first; the second is how many there may be, of 19,200
DISTANCE, OTHERS = 24, 20
COMMANDS = ("overlay", "hierarchy", "simplify", "relate", "clip", "slice", "tiles", "locate", "edges")
LOOKS = ("beside", "nodes", "sides", "lens", "solvers")
BEGUN = """
    const [rows] = arguments, box = document.querySelector(".board");
    Object.assign(box.style, { position: "fixed", left: 0, top: 0, width: "640px", height: "480px", border: "0" });
    Object.assign(CanvasRenderingContext2D.prototype, { fillText() {}, strokeText() {} });
    globalThis.sheet = Object.assign(document.createElement("canvas"), { width: 640, height: 120 * rows });
"""
SIZED = "return polyover.board.view.width === 640 && polyover.board.view.height === 480"
ADDED = """
    const [at] = arguments, { board, state } = polyover;
    board.hand.pointer = board.hand.aim = state.piece = null;
    board.paint();
    const { data } = board.canvas.getContext("2d").getImageData(0, 0, 640, 480);
    const sums = new Float64Array(4 * 160 * 120);
    for (let place = 0; place < data.length; place++) {
        const [x, y] = [(place >> 2) % 640, Math.floor((place >> 2) / 640)];
        sums[4 * (160 * (y >> 2) + (x >> 2)) + (place & 3)] += data[place];
    }
    const small = new ImageData(160, 120);
    small.data.set(sums.map((sum) => sum / 16));
    globalThis.sheet.getContext("2d").putImageData(small, 160 * (at % 4), 120 * Math.floor(at / 4));
"""
COMPARED = """
    const [stored, count, distance, done] = arguments, { width, height } = globalThis.sheet;
    const image = new Image();
    image.onload = () => {
        const other = Object.assign(document.createElement("canvas"), { width, height });
        other.getContext("2d").drawImage(image, 0, 0);
        const [found, wanted] = [globalThis.sheet, other].map((each) => each.getContext("2d"));
        done(Array.from({ length: count }, (_, at) => {
            const place = [160 * (at % 4), 120 * Math.floor(at / 4), 160, 120];
            const [a, b] = [found, wanted].map((each) => each.getImageData(...place).data);
            let others = 0;
            for (let pixel = 0; pixel < a.length; pixel += 4) {
                others += [0, 1, 2].some((colour) => Math.abs(a[pixel + colour] - b[pixel + colour]) > distance);
            }
            return others;
        }));
    };
    image.src = stored;
"""


def shown(page):
    """Shows each example, command and look in turn, and names it."""
    for name in EXAMPLES:
        page.example(name)
        yield name
    page.open(DRAWN)
    for command in COMMANDS:
        page.choose("command", command)
        yield f"{command} of the same drawing"
    page.choose("command", "overlay")
    for look in LOOKS:
        page.choose(look, True)
        yield f"overlay with {look}"
        page.choose(look, False)


def draw_sheet(page, theme):
    """Draws a sheet in the page, and gives the names of its pictures."""
    page.size(is_dark=THEMES[theme])
    page.load()
    page.run(BEGUN, (len(EXAMPLES) + len(COMMANDS) + len(LOOKS) + 3) // 4)
    page.until(SIZED)
    names = []
    for name in shown(page):
        page.run(ADDED, len(names))
        names.append(name)
    return names


def sheet_of(page):
    """The bytes of the sheet that is drawn."""
    return b64decode(page.run("return sheet.toDataURL()").partition(",")[2])


def others_in(page, theme, count):
    """How many pixels of each picture are others than those of the stored one."""
    stored = b64encode((HERE / f"{theme}.png").read_bytes()).decode()
    words = f"data:image/png;base64,{stored}", count, DISTANCE
    return page.run_later(COMPARED, *words)
