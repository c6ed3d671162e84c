"""The library for C as `fuzz.py` asks it: by one solver, with answers as the program prints them."""

import sys
import time
from pathlib import Path

from checks import must, path_of

ROOT = Path(__file__).resolve().parent.parent
sys.path.insert(0, str(ROOT / "python"))

# pylint: disable=wrong-import-position
from polyover import by_library  # noqa: E402
from polyover.calls import Look  # noqa: E402
from polyover.errors import NotSettled  # noqa: E402
from polyover.text import FILLS, RULES, SNAPPED, SOLVERS, printed_path  # noqa: E402

# pylint: enable=wrong-import-position

RULE_NAMES = {word: name for name, word in RULES.items()}
FILL_NAMES = {word: name for name, word in FILLS.items()}
# how many halves of a unit a chain moves at most, in x and in y
HALVES = dict(zip(SOLVERS, (1, 64)))


class Solved:
    """The library, which splits edges by one solver; it counts the calls and keeps the last input."""

    def __init__(self, solver):
        must(by_library.can("overlay"), "no library: scripts/build library, or POLYOVER_LIBRARY")
        self.name = solver
        self.halves = HALVES[solver]
        self.runs = 0
        self.last = b""
        self.asked_at = 0.0

    def answer(self, lines, query):
        """The answer to a query; none where rounds do not settle."""
        self.runs, self.last = self.runs + 1, "\n".join([*lines, f"run {query}", ""]).encode()
        self.asked_at = time.monotonic()
        paths = {"subject": [], "clip": [], "line": [], "point": []}
        for line in lines:
            word, _, numbers = line.partition(" ")
            paths[word].append(path_of(numbers))
        command, *words = query.split()
        try:
            return getattr(self, f"answer_{command}")(paths, words)
        except NotSettled:
            must(self.name != SNAPPED, "snap rounding is refused")
            return None

    def must_misfit(self, lines, query):
        """Nothing: the library has no tiles, and the module tests a grid before it asks."""

    def answer_edges(self, paths, words):
        """The edges of the arrangement."""
        found = by_library.edges(paths["subject"], paths["clip"], FILL_NAMES[words[0]], self.name)
        return "".join(f"edge {ax} {ay} {bx} {by} {fill}\n" for (ax, ay), (bx, by), fill in found)

    def answer_overlay(self, paths, words):
        """The shapes of an overlay."""
        return printed(by_library.overlay(paths["subject"], paths["clip"], *self.asked(words)))

    def answer_hierarchy(self, paths, words):
        """The shapes of an overlay, and its links."""
        shapes, links = by_library.hierarchy(paths["subject"], paths["clip"], *self.asked(words))
        return printed(shapes) + "".join(f"link {parent} {hole} {child}\n" for parent, hole, child in links)

    def answer_relate(self, paths, words):
        """The relations, of the coordinates as they are."""
        told = by_library.relate(paths["subject"], paths["clip"], FILL_NAMES[words[0]], self.name)
        return "".join(f"{name} {str(holds).lower()}\n" for name, holds in told.items())

    def answer_clip(self, paths, words):
        """The parts of the lines."""
        kept = ("invert" in words, "boundary" in words)
        found = by_library.clip(paths["subject"], paths["line"], FILL_NAMES[words[0]], *kept, self.name)
        return "".join(map(printed_path, found))

    def answer_slice(self, paths, words):
        """The slices of the subject along the lines."""
        return printed(by_library.slice(paths["subject"], paths["line"], FILL_NAMES[words[0]], self.name))

    def answer_tiles(self, paths, words):
        """The tiles of the subject."""
        sides = (int(it) for it in words[1:])
        return printed(by_library.tiles(paths["subject"], *sides, FILL_NAMES[words[0]], self.name))

    def asked(self, words):
        """The rules of an overlay, and how it looks."""
        least = int(words[words.index("min") + 1]) if "min" in words else 0
        look = Look("ogc" in words, "clockwise" in words, "keep" in words, least, self.name)
        return RULE_NAMES[words[0]], FILL_NAMES[words[1]], look


def printed(shapes):
    """The lines of shapes."""
    return "".join(f"shape\n{''.join(map(printed_path, shape))}" for shape in shapes)
