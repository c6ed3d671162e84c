#!/usr/bin/env python3
"""Times exact relations beside those of an arrangement, and prints a table in Markdown.

    exact.py [--edges 100 1000 10000] [--only NAME ..]      by the library in out/

Each row has milliseconds of processor time of `polyover_relate` by snap rounding, of `polyover_relate_exact`, and their
ratio, for each number of edges. A figure is the least of `--times` calls. Both answer alike on these shapes, which is
tested.
"""

import argparse
import ctypes
import math
from random import Random
from time import process_time

from build import ROOT

FAR = 500_000_000
EVEN_ODD = SNAPPED = 0


class Contours(ctypes.Structure):
    """The contours of a shape, as the library for C takes them."""

    _fields_ = [
        ("coordinates", ctypes.POINTER(ctypes.c_int32)),
        ("coordinate_count", ctypes.c_size_t),
        ("ends", ctypes.POINTER(ctypes.c_size_t)),
        ("count", ctypes.c_size_t),
    ]


def contours_of(shape):
    """The contours of a shape, with its arrays."""
    ends, points = [], [point for contour in shape for point in contour]
    for contour in shape:
        ends.append(len(contour) + (ends[-1] if ends else 0))
    numbers = [number for point in points for number in point]
    coordinates = (ctypes.c_int32 * len(numbers))(*numbers)
    return Contours(coordinates, len(numbers), (ctypes.c_size_t * len(ends))(*ends), len(ends))


# ---- the shapes


def star(count, x, inner, outer, turn=0.0):
    """A star round a point at height 0."""
    turns = (turn + 2 * math.pi * at / count for at in range(count))
    sizes = (inner if at % 2 == 0 else outer for at in range(count))
    return [(round(x + size * math.cos(it)), round(size * math.sin(it))) for it, size in zip(turns, sizes)]


def circle(count, x, radius, turn=0.0):
    """A circle round a point at height 0."""
    return star(count, x, radius, radius, turn)


def squares(count, low, size):
    """Squares of a grid of step 200, each from `low` on in x and y."""
    side = max(1, math.isqrt(count // 4))
    corners = [(200 * i + low[0], 200 * j + low[1]) for i in range(side) for j in range(side)]
    return [[(x, y), (x + size, y), (x + size, y + size), (x, y + size)] for x, y in corners]


def slanted(shape):
    """A shape that is turned by 45 degrees, and larger."""
    return [[(x + y, y - x) for x, y in contour] for contour in shape]


def triangles(count, x, seed):
    """Triangles in the cells of a grid of step 4000."""
    random, side = Random(seed), math.isqrt(count // 3) + 1
    cells = [(x + 4000 * (at % side), 4000 * (at // side)) for at in range(count // 3)]
    return [[(u + random.randrange(3000), v + random.randrange(3000)) for _ in range(3)] for u, v in cells]


def scribble(count, x):
    """One contour through random points, which crosses itself."""
    random = Random(count)
    return [(random.randrange(FAR // 2) + x, random.randrange(FAR)) for _ in range(count)]


def bars(count):
    """Slanted bars that lie over one another apart, in random order, and two triangles that share a part of a side.

    Some 120 edges start over each bar. Each second bar is the clip's.
    """
    random, most = Random(count), max(2, count // 2)
    rows, step = list(range(most)), FAR // most
    random.shuffle(rows)
    found = [], []
    for at, row in enumerate(rows):
        x, y, wide = random.randrange(FAR), row * step, FAR * 30 // (30 + most)
        ends = [(x, y), (x + wide, y + step // 3)]
        found[at % 2].append(ends + [(u, v + step // 3) for u, v in reversed(ends)])
    found[0].append([(-100, -100), (0, 0), (-100, 50)])
    found[1].append([(-80, -80), (0, -80), (-20, -20)])
    return found


FAMILIES = {
    "stars apart": lambda n: ([star(n, -FAR, FAR // 3, FAR // 2)], [star(n, FAR // 2, FAR // 3, FAR // 2)]),
    "a star in a star": lambda n: ([star(n, 0, FAR // 6, FAR // 4)], [star(n, 0, FAR // 2, FAR)]),
    "two stars that cross": lambda n: ([star(n, 0, FAR // 2, FAR)], [star(n, FAR // 7, FAR // 2, FAR, 0.01)]),
    "a circle in a circle": lambda n: ([circle(n, 0, FAR // 3)], [circle(n, 0, FAR // 2)]),
    "two circles that cross": lambda n: ([circle(n, -FAR // 3, FAR // 2)], [circle(n, FAR // 3, FAR // 2, 0.001)]),
    "squares apart": lambda n: (squares(n, (0, 0), 100), squares(n, (150, 150), 40)),
    "squares in squares": lambda n: (squares(n, (20, 20), 40), squares(n, (0, 0), 100)),
    "squares that cross": lambda n: (squares(n, (0, 0), 100), squares(n, (50, 50), 100)),
    "squares that share corners": lambda n: (squares(n, (0, 0), 100), squares(n, (100, 100), 100)),
    "squares that share parts of sides": lambda n: (squares(n, (0, 0), 100), squares(n, (100, 50), 100)),
    "slanted squares that share parts of sides": lambda n: (
        slanted(squares(n, (0, 0), 100)),
        slanted(squares(n, (100, 50), 100)),
    ),
    "bars, and a shared side": bars,
    "triangles apart": lambda n: (triangles(n, 0, 1), triangles(n, 10**8, 2)),
    "triangles that cross": lambda n: (triangles(n, 0, 1), triangles(n, 1000, 2)),
    "scribbles apart": lambda n: ([scribble(min(n, 500), -FAR)], [scribble(min(n, 500), FAR // 2)]),
    "scribbles that cross": lambda n: ([scribble(min(n, 500), 0)], [scribble(min(n, 500), FAR // 4)]),
}


# ---- the calls


def least(call, times):
    """The least processor time of a call, in milliseconds; long calls are made once."""
    found = math.inf
    for _ in range(times):
        began = process_time()
        call()
        found = min(found, process_time() - began)
        if found > 1:
            break
    return 1000 * found


def times_of(library, shapes, times):
    """The times of both calls, whose answers are the same."""
    subject, clip = map(contours_of, shapes)
    found = [ctypes.c_uint32(), ctypes.c_uint32()]
    statuses = []

    def snapped():
        args = EVEN_ODD, SNAPPED, ctypes.byref(subject), ctypes.byref(clip), ctypes.byref(found[0])
        statuses.append(library.polyover_relate_32(*args))

    def exact():
        args = EVEN_ODD, ctypes.byref(subject), ctypes.byref(clip), ctypes.byref(found[1])
        statuses.append(library.polyover_relate_exact_32(*args))

    took = least(snapped, times), least(exact, times)
    if any(statuses) or found[0].value != found[1].value:
        raise SystemExit(f"statuses {set(statuses)}, answers {found[0].value} and {found[1].value}")
    return took


def main():
    """Prints the table."""
    parser = argparse.ArgumentParser(description=__doc__, formatter_class=argparse.RawDescriptionHelpFormatter)
    parser.add_argument("--edges", type=int, nargs="*", default=[100, 1000, 10000])
    parser.add_argument("--only", nargs="*", default=list(FAMILIES), metavar="NAME")
    parser.add_argument("--times", type=int, default=9)
    given = parser.parse_args()
    library = ctypes.CDLL(str(ROOT / "out" / "libpolyover.so"))
    print(f"| Shapes | {' | '.join(f'{n:,} edges | exact | ratio' for n in given.edges)} |")
    print(f"|---|{'---|---|---|' * len(given.edges)}")
    for name in given.only:
        cells = []
        for edges in given.edges:
            snapped, exact = times_of(library, FAMILIES[name](edges // 2), given.times)
            cells += [f"{snapped:.3g}", f"{exact:.3g}", f"{exact / snapped:.2f}"]
        print(f"| {name} | {' | '.join(cells)} |", flush=True)


if __name__ == "__main__":
    main()
