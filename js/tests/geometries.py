#!/usr/bin/env python3
"""Prints made geometries of GeoJSON with what Python's module answers of them: geometries.py COUNT [SEED].

A line of JSON has the geometries `subject` and `clip`, `line`, `points`, the options, and the answers by their calls.
Polygons are boxes with boxes as holes, which may overlap, and lie outside.
"""

from __future__ import annotations

import json
import sys
from pathlib import Path
from random import Random
from typing import Any

sys.path.insert(0, str(Path(__file__).resolve().parents[2] / "python"))
import polyover  # noqa: E402
from polyover.text import FILLS, RULES, SNAPPED, SOLVERS  # noqa: E402

REACH = 24


def point(random: Random, unit: float) -> list[float]:
    """A point."""
    return [random.randint(0, REACH) / unit for _ in range(2)]


def box(random: Random, unit: float) -> list[Any]:
    """The ring of a box, in one direction or the other."""
    (left, right), (low, high) = (sorted(random.sample(range(REACH + 1), 2)) for _ in range(2))
    ring = [[left, low], [right, low], [right, high], [left, high], [left, low]][:: random.choice((1, -1))]
    return [[x / unit, y / unit] for x, y in ring]


def geometry(random: Random, unit: float) -> dict[str, Any]:
    """A geometry of some polygons, or their features."""
    count = random.randint(1, 4)
    polygons = [[box(random, unit) for _ in range(random.choice((1, 1, 2, 3)))] for _ in range(count)]
    if random.random() < 0.5:
        return {"type": "MultiPolygon", "coordinates": polygons}
    geometries = [{"type": "Polygon", "coordinates": rings} for rings in polygons]
    features = [{"type": "Feature", "properties": {}, "geometry": each} for each in geometries]
    return {"type": "FeatureCollection", "features": features}


def made(random: Random) -> dict[str, Any]:
    """What is given, and each answer."""
    digits = random.choice((0, 1, 2))
    unit, scaled = 10**digits, polyover.Scaled.of_digits(digits)
    subject, clip = geometry(random, unit), geometry(random, unit)
    line, points = [point(random, unit) for _ in range(4)], [point(random, unit) for _ in range(20)]
    rule, fill, solver = (random.choice(list(names)) for names in (RULES, FILLS, SOLVERS))
    area = random.choice((0, 0.07, 2.5, 30))
    split = {"fill": fill, "solver": solver}
    shapes, links = scaled.hierarchy(subject, clip, rule, minimum_area=area, **split)
    answers = {
        "overlay": scaled.overlay(subject, clip, rule, minimum_area=area, **split),
        "hierarchy": {"shapes": shapes, "links": links},
        "simplify": scaled.simplify(subject, minimum_area=area, **split),
        "relate": list(scaled.relate(subject, clip, fill, solver=SNAPPED).values()),
        "clip": scaled.clip(subject, [line], **split),
        "slice": scaled.slice(subject, [line], **split),
        "edges": scaled.edges(subject, clip, **split),
        "locate": scaled.locate(subject, points),
        "prepare": scaled.prepared(subject, **split).locate(points),
    }
    given = {"subject": subject, "clip": clip, "line": line, "points": points, "scale": unit}
    return {**given, "rule": rule, "fill": fill, "solver": solver, "minimumArea": area, "answers": answers}


def main() -> None:
    """Prints as many as are asked for."""
    random = Random(int(sys.argv[2]) if len(sys.argv) > 2 else 1)
    if polyover.backend() != "library":
        raise SystemExit("no library for C (make -C c)")
    for _ in range(int(sys.argv[1])):
        print(json.dumps(made(random)))


if __name__ == "__main__":
    main()
