"""Inputs of the program as pictures: what they have, and what is answered."""

from __future__ import annotations

from typing import Any

from . import calls
from .commands import NAMES, figures_in, printed
from .errors import ProgramMissing
from .grid import grid_lines
from .library import library
from .picture import Picture
from .program import BadLine, answer
from .reasons import BadLineBecause, checked, reason_of
from .text import FILLS, ROUNDS, edges_in, paths_in, shapes_in

CLIP_COMMANDS = ("overlay", "hierarchy", "edges", "relate")
SHAPE_COMMANDS = ("overlay", "hierarchy", "slice", "tiles")
STRENGTHS = (0.25, 0.5, 0.37)


def told_of(text: str) -> str:
    """What the program answers to an input; where there is none, but a library, what that does. A bad line is named
    with what is wrong in it."""
    try:
        return answer(text)
    except BadLine as bad:
        raise BadLineBecause(bad.line, reason_of(text, bad.line)) from None
    except ProgramMissing:
        if library() is None:
            raise
    checked(text)
    return printed(text)


def add_answer(picture: Picture, command: str, figures: dict[str, Any], told: str) -> None:
    """Adds what was answered."""
    if command in SHAPE_COMMANDS:
        shapes, _ = shapes_in(told)
        for place, shape in enumerate(shapes):
            picture.add_contours("answer", shape, strength=STRENGTHS[place % len(STRENGTHS)])
    elif command == "edges":
        picture.add_edges(edges_in(told))
    elif command == "clip":
        picture.add_paths("answer", paths_in(told))
    elif command in ("locate", "contains"):
        names = {"true": "inside", "false": "outside"}
        places = [names.get(place, place) for place in told.split()]
        for name in ("inside", "boundary", "outside"):
            found = [path[0] for path, place in zip(figures["point"], places) if place == name]
            picture.add_points(name, found)


def picture_of(text: str, with_nodes: bool = False) -> Picture:
    """The picture of an input and of its answer, where it is asked for with the ends of the arrangement's edges."""
    told = told_of(text)
    figures, words = figures_in(text)
    picture = Picture(" ".join(["run", *words]))
    filled = "evenodd" if "EvenOdd" in words or not words[1:] else "nonzero"
    picture.add_contours("subject", figures["subject"], filled)
    picture.add_contours("clip", figures["clip"], filled)
    picture.add_paths("line", figures["line"])
    add_answer(picture, words[0], figures, told)
    picture.add_outlines("subject", figures["subject"])
    picture.add_outlines("clip", figures["clip"])
    picture.legend = list(dict.fromkeys(picture.legend))
    if words[0] == "relate":
        picture.title = ", ".join(line.split()[0] for line in told.splitlines() if line.endswith("true"))
    if with_nodes:
        picture.add_points("node", sorted(nodes_of(figures, words)))
    return picture


def nodes_of(figures: dict[str, Any], words: list[str]) -> set[Any]:
    """The ends of the edges of the arrangement of subject and clip, and of the lines where the command takes them."""
    fill: Any = next((NAMES[word] for word in words if word in FILLS.values()), "evenodd")
    clip = figures["clip"] if words[0] in CLIP_COMMANDS else []
    nodes = {point for edge in calls.edges(figures["subject"], clip, fill, solver=ROUNDS) for point in edge[:2]}
    lines = lines_in(figures, words)
    if lines:
        for is_outside in (False, True):
            paths = calls.clip(figures["subject"], lines, fill, invert=is_outside, boundary=True, solver=ROUNDS)
            nodes.update(point for path in paths for point in path)
    return nodes


def lines_in(figures: dict[str, Any], words: list[str]) -> list[Any]:
    """The lines that a command takes: those that are given, or those of its grid."""
    if words[0] in ("clip", "slice"):
        return list(figures["line"])
    points = [point for contour in figures["subject"] for point in contour]
    if words[0] != "tiles" or not points:
        return []
    return grid_lines(int(words[2]), int(words[3]), *zip(*points))
