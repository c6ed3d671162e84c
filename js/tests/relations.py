#!/usr/bin/env python3
"""Prints made calls of `polyover_relate_exact` with what the library for C answers: a line of JSON for each.

    relations.py COUNT [SEED]

A line has `subject`, `clip`, `fill`, and `bits`, the sum of the relations that hold. Coordinates are texts where a
float may not hold them. The library is out/libpolyover.so, or what POLYOVER_LIBRARY names; where both widths answer,
they answer the same.
"""

from __future__ import annotations

import json
import os
import sys
from ctypes import CDLL, POINTER, Structure, byref, c_int32, c_int64, c_size_t, c_uint32, c_void_p, cast
from pathlib import Path
from random import Random
from typing import Any

LIBRARY = os.environ.get("POLYOVER_LIBRARY") or Path(__file__).resolve().parents[2] / "out" / "libpolyover.so"
FILLS = ("evenodd", "nonzero", "positive", "negative")
SMALL, WIDE, LIMIT = 2**30 - 1, 2**53 - 1, 2**62 - 1
Contour = list[tuple[int, int]]


class Contours(Structure):
    """The struct `polyover_contours`, and that of 32 bits."""

    _fields_ = (("coordinates", c_void_p), ("coordinate_count", c_size_t), ("ends", c_void_p), ("end_count", c_size_t))


def struct_of(paths: list[Contour], kind: Any) -> tuple[Contours, list[Any]]:
    """Contours as a struct, and the arrays that it points to."""
    numbers = [number for path in paths for point in path for number in point]
    ends = [sum(map(len, paths[: at + 1])) for at in range(len(paths))]
    held = [(kind * len(numbers))(*numbers), (c_size_t * len(ends))(*ends)]
    return Contours(cast(held[0], c_void_p), len(numbers), cast(held[1], c_void_p), len(ends)), held


def bits_of(library: CDLL, fill: str, both: list[list[Contour]], suffix: str, kind: Any) -> int:
    """The sum of the relations that hold."""
    call = library[f"polyover_relate_exact{suffix}"]
    call.argtypes = (c_uint32, POINTER(Contours), POINTER(Contours), POINTER(c_uint32))
    (first, _one), (second, _other) = (struct_of(paths, kind) for paths in both)
    bits = c_uint32()
    if status := call(FILLS.index(fill), byref(first), byref(second), byref(bits)):
        raise SystemExit(f"the library answers the status {status}")
    return bits.value


def contour(random: Random, reach: int, middle: tuple[int, int]) -> Contour:
    """A contour of few points, or a box, round a point."""
    near = max(1, reach // random.choice((1, 2, 4)))
    one, other = ([max(-reach, min(reach, at + random.randint(-near, near))) for at in middle] for _ in range(2))
    if random.random() < 0.4:
        (left, low), (right, high) = one, other
        return [(left, low), (right, low), (right, high), (left, high)][:: random.choice((1, -1))]
    count = random.choice((3, 3, 4, 5, 8))
    return [(random.randint(-near, near) // 2, random.randint(-near, near) // 2) for _ in range(count)]


def made(random: Random) -> tuple[list[list[Contour]], int]:
    """A subject and a clip: at times the one has contours of the other, or is it with a point more."""
    reach = random.choice((2, 3, 4, 6, 10, 1000, SMALL, WIDE, LIMIT))
    middle = (random.randint(-reach, reach), random.randint(-reach, reach))
    subject = [contour(random, reach, middle) for _ in range(random.choice((1, 1, 2, 3)))]
    clip = [contour(random, reach, middle) for _ in range(random.choice((1, 1, 2)))]
    if random.random() < 0.2:
        clip = [*clip, random.choice(subject)[:: random.choice((1, -1))]]
    elif random.random() < 0.2:
        clip = [[*subject[0], (random.randint(-reach, reach), random.randint(-reach, reach))]]
    return [subject, clip], reach


def told(paths: list[Contour], reach: int) -> list[Any]:
    """Contours whose numbers are texts if they are big."""
    return [[[str(number) if reach > WIDE else number for number in point] for point in path] for path in paths]


def main() -> None:
    """Prints as many as are asked for."""
    library, random = CDLL(str(LIBRARY)), Random(int(sys.argv[2]) if len(sys.argv) > 2 else 1)
    for _ in range(int(sys.argv[1])):
        both, reach = made(random)
        fill = random.choice(FILLS)
        bits = bits_of(library, fill, both, "", c_int64)
        if reach <= SMALL and bits_of(library, fill, both, "_32", c_int32) != bits:
            raise SystemExit(f"the widths differ: {fill} {both}")
        subject, clip = (told(paths, reach) for paths in both)
        print(json.dumps({"subject": subject, "clip": clip, "fill": fill, "bits": bits, "is32": reach <= SMALL}))


if __name__ == "__main__":
    main()
