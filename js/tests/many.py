#!/usr/bin/env python3
"""Overlays many squares by the library for C, through Python's module: many.py FILE RULE.

FILE holds int64 in a row: the counts of subject contours and of clip contours, and the coordinates of all, four points
each. It is overwritten with the answer: milliseconds of processors, the less of two calls, the counts of coordinates,
contours and shapes, and these arrays.
"""

from __future__ import annotations

import sys
import time
from array import array
from pathlib import Path

sys.path.insert(0, str(Path(__file__).resolve().parents[2] / "python"))
import polyover  # noqa: E402


def group(numbers: array[int]) -> polyover.Flat:
    """Contours of four points each."""
    return polyover.Flat(numbers, array("q", range(4, len(numbers) // 2 + 1, 4)))


def main() -> None:
    """Answers the file."""
    file = Path(sys.argv[1])
    numbers = array("q", file.read_bytes())
    (subjects, _), coordinates = numbers[:2], numbers[2:]
    subject, clip = group(coordinates[: 8 * subjects]), group(coordinates[8 * subjects :])
    took = 2**62
    for _ in range(2):
        begun = time.process_time()
        shapes = polyover.overlay(subject, clip, sys.argv[2], arrays=True)
        took = min(took, round(1000 * (time.process_time() - begun)))
    parts = [array("q", memoryview(it).cast("B").cast("q").tolist()) for it in parts_of(shapes)]
    file.write_bytes(array("q", [took, *map(len, parts)]).tobytes() + b"".join(it.tobytes() for it in parts))


def parts_of(shapes: polyover.FlatShapes) -> list[memoryview]:
    """The arrays of shapes."""
    return [shapes.contours.numbers, shapes.contours.counts, shapes.shape_ends]


if __name__ == "__main__":
    main()
