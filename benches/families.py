"""Families of inputs for `fuzz.py`: contours, lines and points that are hard on an overlay."""

import math
from dataclasses import dataclass, field
from random import Random

from plane import LARGEST

ENDS = (-LARGEST, 1 - LARGEST, -LARGEST // 2, -2, -1, 0, 1, 2, LARGEST // 2, LARGEST - 1, LARGEST)
MOST_LINES = 1000
EIGHT = ((1, 0), (1, 1), (0, 1), (-1, 1), (-1, 0), (-1, -1), (0, -1), (1, -1))


@dataclass
class Figures:
    """What the lines of an input say; `is_exact` where all edges meet in whole points or overlap."""

    subject: list = field(default_factory=list)
    clip: list = field(default_factory=list)
    lines: list = field(default_factory=list)
    points: list = field(default_factory=list)
    is_exact: bool = False

    def texts(self):
        """The lines of the input, but for the query."""
        points = [[it] for it in self.points]
        named = (("subject", self.subject), ("clip", self.clip), ("line", self.lines), ("point", points))
        return [" ".join([word, *(f"{x} {y}" for x, y in path)]) for word, paths in named for path in paths]


def grid_lines(paths, width, height):
    """The lines of a grid across the box of the paths' points; none at all where the grid does not fit."""
    if not (1 <= width <= LARGEST and 1 <= height <= LARGEST):
        return None
    points = [it for path in paths for it in path]
    if not points:
        return []
    (left, right), (low, high) = ((min(it), max(it)) for it in zip(*points))
    spans = ((left, right, width), (low, high, height))
    if any((last - 1) // side - first // side > MOST_LINES for first, last, side in spans):
        return None
    uprights, levels = (range((first // side + 1) * side, last, side) for first, last, side in spans)
    return [*([(x, low), (x, high)] for x in uprights), *([(left, y), (right, y)] for y in levels)]


def sides_of_cells(paths, random):
    """The width and the height of cells: a few across the box of the paths' points, or any."""
    sides = []
    for numbers in zip(*(it for path in paths for it in path)) if any(paths) else ((0, 9), (0, 9)):
        span = max(numbers) - min(numbers)
        few = span // random.randint(1, 9) + random.randint(-1, 1)
        any_side = random.choice((-1, 0, 1, span, span + 1, LARGEST, LARGEST + 1, 2**127))
        sides.append(any_side if random.random() < 0.1 else min(max(few, 1), LARGEST))
    return sides


def many(random: Random, most, make):
    """So many of what a function makes, none at times."""
    return [make() for _ in range(random.randint(0 if random.random() < 0.1 else 1, most))]


def of_points(random: Random, pick, is_exact=False, contours=4, corners=8):
    """Contours, lines and points of coordinates that a function picks."""

    def path():
        return [(pick(), pick()) for _ in range(random.randint(0 if random.random() < 0.1 else 3, corners))]

    figures = Figures(many(random, contours, path), many(random, contours, path), many(random, 3, path))
    figures.is_exact = is_exact
    figures.points = [(pick(), pick()) for _ in range(5)]
    return figures


def small_grid(random):
    """Any contours on a few points, so that nearly all touch and overlap."""
    size = random.randint(1, 7)
    return of_points(random, lambda: random.randint(0, size), corners=random.choice((4, 6, 12)))


def large(random):
    """Any contours in the whole range."""
    return of_points(random, lambda: random.randint(-LARGEST, LARGEST))


def middling(random):
    """Any contours within some power of two."""
    size = 2 ** random.randint(3, 61)
    return of_points(random, lambda: random.randint(-size, size))


def ends(random):
    """Contours through the ends of the range and points beside zero."""
    return of_points(random, lambda: random.choice(ENDS))


def square(x, y, width, height):
    """A rectangle, counterclockwise."""
    return [(x, y), (x + width, y), (x + width, y + height), (x, y + height)]


def touching(random):
    """Rectangles and grid walks on a coarse grid: all meet in whole points."""
    scale = random.choice((1, 1, 7, LARGEST // 16))
    size = random.randint(2, 8)

    def rectangle():
        x, y = random.randint(-size, size - 1), random.randint(-size, size - 1)
        corners = square(x, y, random.randint(1, size - x), random.randint(1, size - y))
        path = [(scale * a, scale * b) for a, b in corners]
        return path[::-1] if random.random() < 0.3 else path

    def walk():
        x, y, path = 0, 0, []
        for turn in range(2 * random.randint(2, 6)):
            x, y = (random.randint(-size, size), y) if turn % 2 else (x, random.randint(-size, size))
            path.append((scale * x, scale * y))
        return [*path, (path[0][0], path[-1][1])]

    def either():
        return rectangle() if random.random() < 0.7 else walk()

    lines = many(random, 4, lambda: walk()[:-1])
    figures = Figures(many(random, 6, either), many(random, 4, either), lines, is_exact=True)
    figures.points = [(scale * random.randint(-size, size), scale * random.randint(-size, size)) for _ in range(5)]
    return figures


def eight_ways(random):
    """Steps of even length in eight directions: all meet in whole points."""
    scale = random.choice((2, 2, 2**20))

    def walk(is_closed):
        x, y, path = scale * random.randint(-6, 6), scale * random.randint(-6, 6), []
        for _ in range(random.randint(3, 8)):
            path.append((x, y))
            (dx, dy), length = random.choice(EIGHT), scale * random.randint(1, 4)
            x, y = x + dx * length, y + dy * length
        # (back to the start by a diagonal and then straight: even differences, so the corner is whole)
        (sx, sy), turn = path[0], min(abs(path[0][0] - x), abs(path[0][1] - y))
        corner = (x + math.copysign(1, sx - x) * turn, y + math.copysign(1, sy - y) * turn)
        return [*path, (x, y), (int(corner[0]), int(corner[1]))] if is_closed else path

    subject, clip = (many(random, 3, lambda: walk(True)) for _ in range(2))
    return Figures(subject, clip, many(random, 2, lambda: walk(False)), is_exact=True)


def needles(random):
    """Triangles, very wide and hardly high."""
    half = random.choice((50, 2**20, LARGEST))

    def needle():
        y = random.randint(-3, 3)
        path = [(-half + random.randint(0, 2), y), (half - random.randint(0, 2), y + random.randint(-1, 1))]
        path.append((random.choice((-half, half, 0)), y + random.choice((-1, 1, 2))))
        random.shuffle(path)
        return [(b, a) for a, b in path] if random.random() < 0.2 else path

    return Figures(many(random, 5, needle), many(random, 5, needle), many(random, 3, needle), [(0, 0), (half, 0)])


def fans(random):
    """Triangles through one point, combs whose teeth end on one point, and lines through it."""
    size = random.choice((3, 10, 2**30, LARGEST))
    middle = (random.randint(-1, 1), random.randint(-1, 1))

    def tooth():
        a, b = (tuple(random.choice((-1, 1)) * random.randint(size // 2, size) for _ in range(2)) for _ in range(2))
        return [middle, a, b]

    def comb():
        return [it for _ in range(random.randint(1, 5)) for it in tooth()]

    return Figures(many(random, 8, tooth), many(random, 3, comb), many(random, 3, lambda: comb()[::-1]), [middle])


def nested(random):
    """Squares in one another, side by side, some of which touch."""
    found = []

    def fill(x, y, size):
        if size < 1 or len(found) > 25:
            return
        path = square(x, y, size, size)
        found.append(path[::-1] if random.random() < 0.3 else path)
        gap = random.randint(0, 1)
        if random.random() < 0.5:
            fill(x + gap, y + gap, size - 2 * gap - random.randint(0, 1))
        else:
            half = (size - 2 * gap) // 2
            for dx, dy in ((0, 0), (half, half), (half, 0)):
                fill(x + gap + dx, y + gap + dy, half - random.randint(0, 1))

    fill(0, 0, random.randint(3, 24))
    kept = random.randint(1, len(found))
    figures = Figures(found[:kept], found[kept:], [[(-1, 3), (30, 3)], [(4, 30), (4, -1)]], is_exact=True)
    figures.points = [(random.randint(0, 24), random.randint(0, 24)) for _ in range(5)]
    return figures


def tilted(random):
    """A grid of lines across the range, a little turned, as the clip or the lines over a few contours."""
    wide, lean = random.choice(((1000, 100), (LARGEST - 1, LARGEST // 10))), random.randint(2, 6)
    half, slope = wide
    bars = [[(-half, y - slope), (half, y + slope), (half, y + slope + half // 9), (-half, y - slope + half // 9)]
            for y in range(-half // 2, half // 2, half // lean)]
    posts = [[(-y, x) for x, y in bar] for bar in bars]
    return Figures(bars, posts, [bar[:2] for bar in posts], [(0, 0), (half, half)])


GEOMETRY = {
    it.__name__: it
    for it in (small_grid, large, middling, ends, touching, eight_ways, needles, fans, nested, tilted)
}
