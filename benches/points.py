#!/usr/bin/env python3
"""Times `run contains` and `run locate` of the program polyover on as many points as edges, and prints a table.

The subject is a saw of about N edges above a trapezoid, or N / 4 squares side by side in a row; the points are random
ones, and as many of the saw's own points. The fastest of three runs counts; of an input without points the time is
taken as well, since that is what reading the contours and the test that they are resolved take.
"""

import argparse
import subprocess
import time
from random import Random

from build import add_program_option, program_of

RUNS = 3


def saw(edges):
    """One contour: teeth of height 1 from left to right, and back below them."""
    top = [(i, i % 2) for i in range(edges - 1)]
    return [[*top, (edges - 2, -10), (0, -10)]]


def squares(edges):
    """Contours of four edges each, side by side."""
    return [[(4 * i, 0), (4 * i + 2, 0), (4 * i + 2, 2), (4 * i, 2)] for i in range(edges // 4)]


def asked_points(contours, count, seed):
    """Random points over the contours' width, and some of their own points."""
    random = Random(seed)
    own = [point for contour in contours for point in contour]
    width = max(x for x, _ in own)
    free = [(random.randint(-5, width + 5), random.randint(-12, 4)) for _ in range(count - count // 2)]
    return free + [random.choice(own) for _ in range(count // 2)]


def text_of(contours, points, command):
    lines = ["subject " + " ".join(f"{x} {y}" for x, y in contour) for contour in contours]
    lines += [f"point {x} {y}" for x, y in points]
    return "\n".join([*lines, command, ""])


def seconds(program, text):
    """The fastest of some runs; the program must end with status 0."""
    best = None
    for _ in range(RUNS):
        start = time.perf_counter()
        ran = subprocess.run([program], input=text, capture_output=True, text=True)
        took = time.perf_counter() - start
        if ran.returncode != 0:
            raise SystemExit(f"status {ran.returncode}: {ran.stderr.strip()}")
        best = took if best is None else min(best, took)
    return best


def main():
    parser = argparse.ArgumentParser(description=__doc__, formatter_class=argparse.RawDescriptionHelpFormatter)
    add_program_option(parser)
    parser.add_argument("--edges", type=int, nargs="+", default=[100, 1000, 10000])
    parser.add_argument("--seed", type=int, default=1)
    given = parser.parse_args()
    program = program_of(parser, given)
    print("| Subject | Edges | Points | Command | Seconds | Without points |")
    print("|---|---|---|---|---|---|")
    for name, make in (("saw", saw), ("squares", squares)):
        for edges in given.edges:
            contours = make(edges)
            points = asked_points(contours, edges, given.seed)
            for command in ("run contains", "run locate"):
                full = seconds(program, text_of(contours, points, command))
                bare = seconds(program, text_of(contours, [], command))
                print(f"| {name} | {edges} | {len(points)} | `{command}` | {full:.3f} | {bare:.3f} |")


if __name__ == "__main__":
    main()
