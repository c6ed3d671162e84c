#!/usr/bin/env python3
"""Prints made calls with what the library for C answers, through Python's module: a line of JSON for each.

    made.py COUNT [SEED]

A line has `call`, `given` (contours, lines or points), `options`, and `answer` or `fault`. Coordinates that a float may
not hold are texts, and `isBig` says so. The library is out/libpolyover.so, or what POLYOVER_LIBRARY names.
"""

from __future__ import annotations

import json
import sys
from pathlib import Path
from random import Random
from typing import Any

sys.path.insert(0, str(Path(__file__).resolve().parents[2] / "python"))
import polyover  # noqa: E402
from polyover.text import FILLS, LIMIT, RULES, SNAPPED, SOLVERS  # noqa: E402

CALLS = (
    *("overlay", "hierarchy", "simplify", "relate", "clip", "slice", "locate", "edges", "is_resolved", "prepare"),
    *("vectors", "trace"),
)
SMALL, WIDE = 2**30 - 1, 2**50


def path(random: Random, reach: int, least: int = 0) -> list[Any]:
    """A path of few points."""
    return [(random.randint(-reach, reach), random.randint(-reach, reach)) for _ in range(random.randint(least, 9))]


def box(random: Random, reach: int) -> list[Any]:
    """A rectangle, in one direction or the other."""
    (left, right), (low, high) = (sorted(random.randint(-reach, reach) for _ in range(2)) for _ in range(2))
    return [(left, low), (right, low), (right, high), (left, high)][:: random.choice((1, -1))]


def contours(random: Random, reach: int) -> list[Any]:
    """Some contours."""
    return [random.choice((box, path))(random, reach) for _ in range(random.randint(0, 5))]


def look(random: Random, reach: int) -> dict[str, Any]:
    """Options of an overlay, by Python's names."""
    options = {name: random.random() < 0.3 for name in ("clockwise", "keep")}
    least = random.choice((0, 0, 1, reach**2 // 8 + 1))
    return {**options, **filled(random), "ogc": random.random() < 0.7, "minimum_area": least}


def filled(random: Random) -> dict[str, Any]:
    """A fill rule and a solver."""
    return {"fill": random.choice(list(FILLS)), "solver": random.choice(list(SOLVERS))}


def made(random: Random) -> tuple[str, list[Any], dict[str, Any], int]:
    """A call, what is given to it, and its options."""
    call, reach = random.choice(CALLS), random.choice((3, 10, 1000, SMALL, WIDE, LIMIT))
    first = contours(random, reach)
    if call in ("overlay", "hierarchy", "vectors"):
        options = {**look(random, reach), "rule": random.choice(list(RULES))}
        if call == "vectors":
            del options["ogc"]
        return call, [first, contours(random, reach)], options, reach
    if call == "simplify":
        return call, [first[: random.choice((1, 9))]], look(random, reach), reach
    if call == "is_resolved":
        return call, [first], {}, reach
    if call == "locate":
        return call, [[box(random, reach) for _ in first], path(random, reach)], {}, reach
    if call == "relate":
        # (of the arrangement; by rounds Python goes on where they do not settle)
        options = {"fill": random.choice(list(FILLS)), "solver": SNAPPED}
        return call, [first, contours(random, reach)], options, reach
    options = filled(random)
    if call == "prepare":
        return call, [first, path(random, reach)], options, reach
    if call == "trace":
        options["closed"] = random.random() < 0.7
        options |= random.choice(({}, {"rule": random.choice(list(RULES))}))
    if call in ("edges", "trace"):
        return call, [first, contours(random, reach)], options, reach
    if call == "clip":
        options |= {name: random.random() < 0.4 for name in ("invert", "boundary")}
    return call, [first, [path(random, reach, 2) for _ in range(3)]], options, reach


def answer_of(call: str, given: list[Any], options: dict[str, Any]) -> Any:
    """What a call answers; a prepared shape, where points lie in it."""
    if call == "prepare":
        return polyover.Prepared(given[0], **options).locate(given[1])
    return getattr(polyover, call)(*given, **options)


def told(value: Any, is_big: bool) -> Any:
    """A value with lists for tuples, and its numbers as texts if they are big."""
    if isinstance(value, (list, tuple)):
        return [told(each, is_big) for each in value]
    if isinstance(value, dict):
        return {name: told(each, is_big) for name, each in value.items()}
    return str(value) if is_big and isinstance(value, int) and not isinstance(value, bool) else value


def main() -> None:
    """Prints the number of inputs that the first argument asks for."""
    count, seed = int(sys.argv[1]), int(sys.argv[2]) if len(sys.argv) > 2 else 1
    if polyover.backend() != "library":
        raise SystemExit("no library for C (make -C c)")
    random = Random(seed)
    for _ in range(count):
        call, given, options, reach = made(random)
        try:
            answer, fault = answer_of(call, given, options), None
        except polyover.PolyoverError as found:
            answer, fault = None, type(found).__name__
        line = {"call": call, "given": given, "answer": answer}
        is_big = reach > 2**53
        text = {**told(line, is_big), "call": call, "options": told(options, True), "fault": fault}
        print(json.dumps({**text, "isBig": is_big, "is32": reach <= SMALL}))


if __name__ == "__main__":
    main()
