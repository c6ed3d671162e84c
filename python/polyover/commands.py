"""Inputs of the program, read and answered by the module's calls as the program reads and answers them: in rounds."""

from __future__ import annotations

import re
from typing import Any, Callable

from . import calls
from .program import BadLine
from .relations import relations_as_given
from .text import FILLS, LIMIT, ROUNDS, RULES, points_in, printed_path, printed_shapes

KINDS = ("subject", "clip", "line", "point")
NAMES: dict[str, Any] = {word: name for words in (RULES, FILLS) for name, word in words.items()}
PATH, FILL, NUMBER = "( -?[0-9]+ -?[0-9]+)*", f" ({'|'.join(FILLS.values())})", " -?[0-9]+"
OVERLAY = f" ({'|'.join(RULES.values())}){FILL}( ogc| keep| clockwise| min{NUMBER})*"
COMMANDS = {
    "overlay": OVERLAY,
    "hierarchy": OVERLAY,
    "edges": FILL,
    "relate": FILL,
    "clip": f"{FILL}( invert| boundary)*",
    "slice": FILL,
    "tiles": f"{FILL}{NUMBER}{NUMBER}",
    "contains": "",
    "locate": "",
}
FIGURE = re.compile(f"(subject|clip|line){PATH}|point{NUMBER}{NUMBER}")
COMMAND = re.compile("|".join(f"run {name}{words}" for name, words in COMMANDS.items()))
SPACES, ZEROS, LONG = re.compile(" +"), re.compile("(?<![^ -])0+(?=[0-9])"), re.compile("([0-9]{60})[0-9]+")

Figures = dict[str, list[Any]]


# ---- inputs


def plain(line: str) -> str:
    """A line with one space between words. Its numbers have no zeros before them, and 60 digits at most: those of more
    are out of each range, and Python takes no number of many thousand digits."""
    return LONG.sub(r"\1", ZEROS.sub("", SPACES.sub(" ", line).strip(" ")))


def is_figure(line: str) -> bool:
    """Whether a line has a contour, a path or a point, in the coordinate range."""
    return bool(FIGURE.fullmatch(line)) and all(abs(int(number)) <= LIMIT for number in line.split(" ")[1:])


def is_command(line: str) -> bool:
    """Whether a line has a command, with each option at most once, and a minimum area that is in its range."""
    words = line.split(" ")
    names = list(filter(str.isalpha, words))
    is_written = bool(COMMAND.fullmatch(line)) and len(set(names)) == len(names)
    return is_written and 0 <= options_in(words)["minimum_area"] <= calls.AREA_LIMIT


def figures_in(text: str) -> tuple[Figures, list[str]]:
    """The paths of each kind in an input, and the words of its command; a bad line is a fault, which names it."""
    figures: Figures = {kind: [] for kind in KINDS}
    words: list[str] | None = None
    lines = text.replace("\r\n", "\n").removesuffix("\n").split("\n") if text else []
    for number, each in enumerate(lines, 1):
        line = plain(each)
        kind, _, rest = line.partition(" ")
        if words is None and is_figure(line):
            figures[kind].append(points_in(rest))
        elif words is None and is_command(line):
            words = rest.split(" ")
        elif line:
            raise BadLine(number)
    if words is None:
        raise BadLine(len(lines) + 1)
    return figures, words


# ---- answers


def options_in(words: list[str]) -> dict[str, Any]:
    """The options of an overlay, by name."""
    area = int(words[words.index("min") + 1]) if "min" in words else 0
    chosen = {name: name in words for name in ("ogc", "clockwise", "keep")}
    return {**chosen, "minimum_area": area, "solver": ROUNDS}


def printed_overlay(figures: Figures, words: list[str]) -> str:
    """The shapes of an overlay."""
    rule, fill = (NAMES[word] for word in words[:2])
    return printed_shapes(calls.overlay(figures["subject"], figures["clip"], rule, fill, **options_in(words)))


def printed_hierarchy(figures: Figures, words: list[str]) -> str:
    """The shapes of an overlay, and its links."""
    rule, fill = (NAMES[word] for word in words[:2])
    shapes, links = calls.hierarchy(figures["subject"], figures["clip"], rule, fill, **options_in(words))
    return printed_shapes(shapes) + "".join(f"link {' '.join(map(str, link))}\n" for link in links)


def printed_edges(figures: Figures, words: list[str]) -> str:
    """The edges of the arrangement."""
    found = calls.edges(figures["subject"], figures["clip"], NAMES[words[0]], solver=ROUNDS)
    return "".join(f"edge {ax} {ay} {bx} {by} {fill}\n" for (ax, ay), (bx, by), fill in found)


def printed_relations(figures: Figures, words: list[str]) -> str:
    """The seven relations."""
    told = relations_as_given(figures["subject"], figures["clip"], NAMES[words[0]], ROUNDS)
    return "".join(f"{name} {str(holds).lower()}\n" for name, holds in told.items())


def printed_clip(figures: Figures, words: list[str]) -> str:
    """The paths that a clip leaves."""
    chosen = {name: name in words for name in ("invert", "boundary")}
    paths = calls.clip(figures["subject"], figures["line"], NAMES[words[0]], **chosen, solver=ROUNDS)
    return "".join(map(printed_path, paths))


def printed_slices(figures: Figures, words: list[str]) -> str:
    """The shapes into which paths cut the subject."""
    return printed_shapes(calls.slice(figures["subject"], figures["line"], NAMES[words[0]], solver=ROUNDS))


def printed_tiles(figures: Figures, words: list[str]) -> str:
    """The shapes into which a grid cuts the subject."""
    sides = int(words[1]), int(words[2])
    return printed_shapes(calls.tiles(figures["subject"], *sides, NAMES[words[0]], solver=ROUNDS))


def located(figures: Figures) -> list[str]:
    """Where each point lies."""
    return calls.locate(figures["subject"], [point for path in figures["point"] for point in path])


def printed_locations(figures: Figures, _: list[str]) -> str:
    """Where each point lies."""
    return "".join(f"{place}\n" for place in located(figures))


def printed_truths(figures: Figures, _: list[str]) -> str:
    """Whether each point is inside; of one on an edge the program may say either, and this says false."""
    return "".join(f"{str(place == 'inside').lower()}\n" for place in located(figures))


PRINTED: dict[str, Callable[[Figures, list[str]], str]] = {
    "overlay": printed_overlay,
    "hierarchy": printed_hierarchy,
    "edges": printed_edges,
    "relate": printed_relations,
    "clip": printed_clip,
    "slice": printed_slices,
    "tiles": printed_tiles,
    "locate": printed_locations,
    "contains": printed_truths,
}


def printed(text: str) -> str:
    """What the module's call answers to an input, as the program prints it."""
    figures, (command, *words) = figures_in(text)
    return PRINTED[command](figures, words)
