"""Pictures as SVG: what was given, what was answered, a grid with coordinates, and a legend."""

from __future__ import annotations

from dataclasses import dataclass, field
from fractions import Fraction
from html import escape
from math import floor, hypot
from textwrap import wrap
from typing import Any, Callable, Iterable, Sequence

from .contour import box_of

WIDTH = 750
MARGIN = 46
LEGEND = 190
TICK = 5
# (of a letter in a label)
LETTER = 6.2
# how many letters of the title stand in a line beside the picture
TITLE = 26
THIN = 0.15
# of each bit of the filled sides: whose it is, on which side, and where along the edge its tick stands
TICKS = ((1, "subject", 1, 0.45), (2, "subject", -1, 0.45), (4, "clip", 1, 0.55), (8, "clip", -1, 0.55))
COLOURS = {
    "subject": "#3b6fb6",
    "clip": "#d9822b",
    "answer": "#2e8b57",
    "line": "#7a4fa3",
    "inside": "#2e8b57",
    "boundary": "#c9a227",
    "outside": "#b03a3a",
    "edge": "#444444",
    "node": "#111111",
}


@dataclass
class Picture:
    """Layers of paths and points, in whole numbers or floats, which are drawn one over the other."""

    title: str
    layers: list[Callable[[Place], str]] = field(default_factory=list)
    legend: list[tuple[str, str]] = field(default_factory=list)
    extent: list[Any] = field(default_factory=list)

    def shows(self, points: Iterable[Any]) -> None:
        """The picture is large enough for these points."""
        self.extent.extend(points)

    def add_contours(self, name: str, contours: Any, filled: str = "evenodd", strength: float = 0.25) -> None:
        """Closed contours, filled with one colour."""
        if contours:
            self.shows(point for contour in contours for point in contour)
            self.legend.append((name, "area"))
            self.layers.append(lambda at: drawn_contours(at, name, contours, filled, strength))

    def add_outlines(self, name: str, contours: Any) -> None:
        """Closed contours as dashed lines, over what is there."""
        self.layers.append(lambda at: "".join(drawn_outline(at, name, contour) for contour in contours if contour))

    def add_paths(self, name: str, paths: Any) -> None:
        """Open paths."""
        if paths:
            self.shows(point for path in paths for point in path)
            self.legend.append((name, "path"))
            self.layers.append(lambda at: "".join(drawn_path(at, name, path) for path in paths))

    def add_points(self, name: str, points: Any) -> None:
        """Points, as dots."""
        if points:
            self.shows(points)
            self.legend.append((name, "dot"))
            self.layers.append(lambda at: "".join(drawn_dot(at, name, point, 3.5) for point in points))

    def add_edges(self, edges: Any) -> None:
        """Edges, with a small tick on each filled side: of the subject's colour or the clip's."""
        if edges:
            self.shows(point for edge in edges for point in edge[:2])
            self.legend.append(("edge", "path"))
            self.layers.append(lambda at: "".join(drawn_edge(at, *edge) for edge in edges))

    def svg(self, wide: int = WIDTH) -> str:
        """The text of the picture, which is `wide` with its legend."""
        at = Place(self.extent or [(0, 0), (1, 1)], wide - LEGEND)
        width, height = at.width + LEGEND, at.height
        parts = [
            f'<svg xmlns="http://www.w3.org/2000/svg" width="{width}" height="{height}" viewBox="0 0 {width} {height}"'
            ' font-family="sans-serif" font-size="11">',
            f"<title>{escape(self.title)}</title>",
            f'<rect width="{width}" height="{height}" fill="#ffffff"/>',
            drawn_grid(at),
            *(layer(at) for layer in self.layers),
            drawn_legend(at, self.title, self.legend),
            "</svg>",
        ]
        return "\n".join(part.rstrip("\n") for part in parts if part) + "\n"


class Place:
    """Where points lie in the picture: in true proportions, y upwards, and at most `size` wide and high.

    Beside the points there is a margin, which on the left has room for the labels of the grid."""

    def __init__(self, points: Sequence[Any], size: int = WIDTH - LEGEND) -> None:
        self.left, self.low, self.right, self.high = map(Fraction, box_of(points))
        across = max(self.right - self.left, self.high - self.low) or Fraction(1)
        self.step = step_of(across, all(value == int(value) for point in points for value in point[:2]))
        self.before = max([MARGIN, *(8 + label_width(value) for value in multiples(self.low, self.high, self.step))])
        self.scale = Fraction(max(size - self.before - MARGIN, 20)) / across
        self.width = round((self.right - self.left) * self.scale) + self.before + MARGIN
        self.height = max(round((self.high - self.low) * self.scale) + 2 * MARGIN, 200)

    def __call__(self, point: Any) -> tuple[float, float]:
        x = (Fraction(point[0]) - self.left) * self.scale + self.before
        y = self.height - MARGIN - (Fraction(point[1]) - self.low) * self.scale
        return round(float(x), 2), round(float(y), 2)

    def stroke(self, contours: Any, most: float) -> float:
        """How wide a stroke along contours is at most: a sixth of the smallest of them."""
        sizes = [extent_of(contour) for contour in contours if contour]
        least = min((size for size in sizes if size), default=Fraction(1)) * self.scale / 6
        return round(max(THIN, min(most, float(least))), 2)


def extent_of(contour: Any) -> Fraction:
    """How wide or high a contour is."""
    left, low, right, high = map(Fraction, box_of(contour))
    return max(right - left, high - low)


def multiples(low: Fraction, high: Fraction, step: Fraction) -> list[Fraction]:
    """The multiples of a step between two numbers, which may be among them."""
    return [times * step for times in range(-floor(-low / step), floor(high / step) + 1)]


def label_width(value: Fraction) -> int:
    """How wide the label of a number is."""
    return round(LETTER * len(number(value)))


def step_of(across: Fraction, is_whole: bool) -> Fraction:
    """The distance of the grid's lines: 1, 2 or 5 times a power of ten, for some ten lines; whole for whole points."""
    power = Fraction(10) ** (floor_log10(across) - 1)
    step = next(power * times for times in (1, 2, 5, 10, 20, 50, 100) if across / (power * times) <= 10)
    return max(step, Fraction(1)) if is_whole else step


def floor_log10(value: Fraction) -> int:
    """The logarithm of a number to the base 10, rounded down, or one less."""
    digits = len(str(value.numerator)) - len(str(value.denominator))
    return digits - 1


def number(value: Fraction) -> str:
    """A number as short as it can be."""
    if value.denominator == 1:
        return str(value.numerator)
    short = f"{float(value):.12g}"
    return short if Fraction(short) == value else repr(float(value))


def drawn_grid(at: Place) -> str:
    """The lines of the grid, and their coordinates; of those along x as many as have room."""
    parts = ['<g stroke="#dddddd" stroke-width="1" fill="#666666">']
    values, end = multiples(at.left, at.right, at.step), -1e9
    x: float
    y: float
    for value in values:
        (x, _), y = at((value, at.low)), at.height - MARGIN
        parts.append(f'<path d="M{x} {MARGIN}V{y}"/>')
        if x - label_width(value) / 2 > end:
            parts.append(f'<text stroke="none" x="{x}" y="{y + 16}" text-anchor="middle">{number(value)}</text>')
            end = x + label_width(value) / 2 + 6
    for value in multiples(at.low, at.high, at.step):
        _, y = at((at.left, value))
        parts.append(f'<path d="M{at.before} {y}H{at.width - MARGIN}"/>')
        place = f'x="{at.before - 6}" y="{y + 4}"'
        parts.append(f'<text stroke="none" {place} text-anchor="end">{number(value)}</text>')
    return "\n".join([*parts, "</g>"])


def drawn_legend(at: Place, title: str, legend: Sequence[tuple[str, str]]) -> str:
    """The title, and what each colour stands for."""
    lines = wrap(title, TITLE) or [""]
    parts = [
        f'<text x="{at.width}" y="{MARGIN + 14 * number}" font-weight="bold">{escape(line)}</text>'
        for number, line in enumerate(lines)
    ]
    for place, (name, kind) in enumerate(legend, 1):
        x, y = at.width, MARGIN + 14 * (len(lines) - 1) + 20 * place
        colour = COLOURS[name]
        if kind == "area":
            paint = f'fill="{colour}" fill-opacity="0.5" stroke="{colour}"'
            mark = f'<rect x="{x}" y="{y - 9}" width="14" height="10" {paint}/>'
        elif kind == "path":
            mark = f'<path d="M{x} {y - 4}h14" stroke="{colour}" stroke-width="2"/>'
        else:
            mark = f'<circle cx="{x + 7}" cy="{y - 4}" r="3.5" fill="{colour}"/>'
        parts.append(f'{mark}<text x="{x + 22}" y="{y}">{name}</text>')
    return "\n".join(parts)


def way(at: Place, path: Any) -> str:
    """The way of a path through the picture."""
    return "M" + "L".join(f"{x} {y}" for x, y in map(at, path))


def drawn_contours(at: Place, name: str, contours: Any, filled: str, strength: float) -> str:
    """Closed contours as one filled area, with a stroke that is thin beside small ones."""
    colour = COLOURS[name]
    ways = "".join(way(at, contour) + "Z" for contour in contours if contour)
    return (
        f'<path d="{ways}" fill="{colour}" fill-opacity="{strength}" fill-rule="{filled}" stroke="{colour}"'
        f' stroke-width="{at.stroke(contours, 2.2 if name == "answer" else 1.2)}" stroke-linejoin="round"/>\n'
    )


def drawn_outline(at: Place, name: str, contour: Any) -> str:
    """A closed contour as a dashed line."""
    return f'<path d="{way(at, contour)}Z" fill="none" stroke="{COLOURS[name]}" stroke-dasharray="6 4"/>\n'


def drawn_path(at: Place, name: str, path: Any) -> str:
    """An open path."""
    return f'<path d="{way(at, path)}" fill="none" stroke="{COLOURS[name]}" stroke-width="2.2"/>\n' if path else ""


def drawn_dot(at: Place, name: str, point: Any, radius: float) -> str:
    """A point."""
    x, y = at(point)
    return f'<circle cx="{x}" cy="{y}" r="{radius}" fill="{COLOURS[name]}"/>\n'


def drawn_edge(at: Place, start: Any, end: Any, fill: int) -> str:
    """An edge, and a tick on each of its filled sides; above is left of the way from its start to its end."""
    (ax, ay), (bx, by) = at(start), at(end)
    parts = [f'<path d="M{ax} {ay}L{bx} {by}" stroke="{COLOURS["edge"]}" stroke-width="1.4"/>\n']
    length = hypot(bx - ax, by - ay) or 1
    left = ((by - ay) / length * TICK, -(bx - ax) / length * TICK)
    for bit, name, side, along in TICKS:
        if fill & bit:
            x, y = ax + (bx - ax) * along, ay + (by - ay) * along
            parts.append(
                f'<path d="M{round(x, 2)} {round(y, 2)}l{round(side * left[0], 2)} {round(side * left[1], 2)}"'
                f' stroke="{COLOURS[name]}" stroke-width="2.4"/>\n'
            )
    return "".join(parts)
