#!/usr/bin/env python3
"""Tells how the cost of a call grows on families of input that are hard on an overlay, as a table in Markdown.

    growth.py                               processor time at n, 2n, 4n and 8n edges, and the exponent from n to 8n
    growth.py --instructions                instructions of the call in place of time (by valgrind)
    growth.py --edges N --only NAME ..      other sizes, some of the families
    growth.py --peer NAME=PROGRAM ..        beside programs that take `--time N --quiet` and an input of the program
    growth.py --write FOLDER                only writes the inputs, of n edges

The calls are those of the library for C, by snap rounding (`--rounds`: by rounds), of `growth.c`, which a C compiler
builds over out/libpolyover.a (scripts/build). Beside the exponent of edges stands that of edges and meetings, where a
family's meetings are many. Run it at the top of the repository.
"""

import argparse
import math
import re
import subprocess
import sys
import tempfile
from collections.abc import Callable
from dataclasses import dataclass
from pathlib import Path
from random import Random

Points = list[tuple[int, int]]
SIZES = (1, 2, 4, 8)
COLLECTED = re.compile(r"Collected : (\d+)")
MEDIAN = re.compile(r"median (\S+)")
PEAK = re.compile(r"peak (\d+)")


@dataclass
class Family:
    """Inputs of about n edges: how they are made, and how many meetings they have where these are many."""

    name: str
    make: Callable[[int], list[str]]
    meetings: Callable[[int], int] = lambda n: 0


def line_of(word: str, points: Points) -> str:
    """A line of the program's input."""
    return " ".join([word, *(f"{x} {y}" for x, y in points)])


def box(left: int, low: int, right: int, high: int) -> Points:
    """A rectangle, counterclockwise."""
    return [(left, low), (right, low), (right, high), (left, high)]


def on_circle(count: int, radius: int, turn: float = 0.0) -> Points:
    """Points on a circle round the origin, as near as whole points are."""
    angles = (turn + 2 * math.pi * at / count for at in range(count))
    return [(round(radius * math.cos(it)), round(radius * math.sin(it))) for it in angles]


# ---- the families


def sliced_ring(n: int) -> list[str]:
    """One contour that a level line slices."""
    ring = [(x * (10 + 5 * (at % 2)), y * (10 + 5 * (at % 2))) for at, (x, y) in enumerate(on_circle(n, 10**7))]
    return [line_of("subject", ring), line_of("line", [(-(10**9), 1), (10**9, 1)]), "run slice NonZero"]


def apart(n: int) -> list[str]:
    """Squares side by side that do not meet."""
    side = math.isqrt(max(n // 4, 1)) + 1
    places = [(16 * (at % side), 16 * (at // side)) for at in range(n // 4)]
    return [*(line_of("subject", box(x, y, x + 9, y + 9)) for x, y in places), "run overlay Union NonZero"]


def apex(n: int) -> list[str]:
    """Triangles round one corner."""
    far = on_circle(2 * (n // 3), 10**8)
    pairs = zip(far[::2], far[1::2])
    return [*(line_of("subject", [(0, 0), p, q]) for p, q in pairs), "run overlay Union NonZero"]


def pencil(n: int) -> list[str]:
    """Lines through one point, over a square."""
    far = on_circle(2 * n, 10**8)
    pairs = zip(far[:n], far[n:])
    square = line_of("subject", box(-(10**7), -(10**7), 10**7, 10**7))
    return [square, *(line_of("line", [p, (-p[0], -p[1])]) for p, _ in pairs), "run clip NonZero"]


def diamonds(n: int) -> list[str]:
    """Nested squares on a corner, which do not meet."""
    sizes = range(n // 4, 0, -1)
    contours = ([(8 * k, 0), (0, 8 * k), (-8 * k, 0), (0, -8 * k)] for k in sizes)
    return [*(line_of("subject", it) for it in contours), "run overlay Subject EvenOdd"]


def slats(n: int) -> list[str]:
    """Long slanted bars side by side, which do not meet."""
    long = 10**8
    bars = ([(9 * k, 0), (9 * k + 4, 0), (9 * k + 4 + long, long), (9 * k + long, long)] for k in range(n // 4))
    return [*(line_of("subject", it) for it in bars), "run overlay Union NonZero"]


def bases(n: int) -> list[str]:
    """Rectangles of one level of which each base overlaps many others."""
    count = n // 4
    boxes = (box(3 * k, 0, 3 * (k + count), 5 + 7 * k) for k in range(count))
    return [*(line_of("subject", it) for it in boxes), "run overlay Union NonZero"]


def intervals(n: int) -> list[str]:
    """Lines on one line, each inside the one before, over a square."""
    lines = ([(-2 * k, 0), (2 * k, 0)] for k in range(n, 0, -1))
    square = box(-n, -n, n, n)
    return [line_of("subject", square), *(line_of("line", it) for it in lines), "run clip NonZero"]


def equal_lines(n: int) -> list[str]:
    """One line given again and again, which a long line crosses."""
    lines = ([(-100, 0), (100, 1)] for _ in range(n))
    return [line_of("subject", box(-50, -50, 50, 50)), *(line_of("line", it) for it in lines), "run clip NonZero"]


def crosses(n: int) -> list[str]:
    """Long flat edges over many small crossing bars."""
    small, long = n // 10, n // 80
    bars = [it for k in range(small) for it in (box(40 * k, 40 * k, 40 * k + 19, 40 * k + 4),
                                                box(40 * k + 7, 40 * k - 8, 40 * k + 11, 40 * k + 12))]
    last = 40 * small
    long_bars = [[(0, 50 * k - last), (last, 50 * k), (last, 50 * k + 3), (0, 50 * k + 3 - last)] for k in range(long)]
    lines = [*(line_of("subject", it) for it in bars), *(line_of("clip", it) for it in long_bars)]
    return [*lines, "run overlay Xor NonZero"]


def zigzag(n: int) -> list[str]:
    """One contour between two levels a unit apart, whose edges cross each other."""
    points = [(7 * k, 0) if k % 2 == 0 else (10**6 - 13 * k, 1) for k in range(n)]
    return [line_of("subject", points), "run overlay Union NonZero"]


def pentagons(n: int) -> list[str]:
    """Copies of a pentagon, each moved by a few units."""
    random, shape = Random(1), on_circle(5, 1000, 0.3)
    moves = [(random.randrange(40), random.randrange(40)) for _ in range(n // 5)]
    copies = ([(x + a, y + b) for x, y in shape] for a, b in moves)
    return [*(line_of("subject", it) for it in copies), "run overlay Union NonZero"]


def located_nested(n: int) -> list[str]:
    """Nested squares, and as many points as edges."""
    random, count = Random(1), n // 4
    squares = (box(-4 * k, -4 * k, 4 * k, 4 * k) for k in range(count, 0, -1))
    points = (f"point {random.randrange(-n, n)} {random.randrange(-n, n)}" for _ in range(n))
    return [*(line_of("subject", it) for it in squares), *points, "run locate EvenOdd"]


def located_star(n: int) -> list[str]:
    """A star, and as many points as edges."""
    random = Random(1)
    star = [(x * (3 + 5 * (at % 2)), y * (3 + 5 * (at % 2))) for at, (x, y) in enumerate(on_circle(n, 10**7))]
    far = 8 * 10**7
    points = (f"point {random.randrange(-far, far)} {random.randrange(-far, far)}" for _ in range(n))
    return [line_of("subject", star), *points, "run locate NonZero"]


def exactly(make: Callable[[int], list[str]]) -> Callable[[int], list[str]]:
    """The same points located in the contours as they are given."""
    return lambda n: [it.replace("run locate", "run exactly") for it in make(n)]


def needles(n: int) -> list[str]:
    """Thin long triangles, which cross each other a few times each."""
    random, size = Random(1), 10**8
    found = []
    for _ in range(n // 3):
        x, y, angle = random.randrange(size), random.randrange(size), random.random() * 2 * math.pi
        long = 3 * size / math.sqrt(n)
        tip = (round(x + long * math.cos(angle)), round(y + long * math.sin(angle)))
        found.append([(x, y), tip, (x + 50, y + 50)])
    return [*(line_of("subject", it) for it in found), "run overlay Union NonZero"]


FAMILIES = [
    Family("a ring sliced by a line", sliced_ring),
    Family("squares apart", apart),
    Family("triangles round a corner", apex),
    Family("lines through a point", pencil),
    Family("nested squares on a corner", diamonds),
    Family("slanted bars side by side", slats),
    Family("overlapping bases", bases, lambda n: n * n // 32),
    Family("nested lines on a line", intervals),
    Family("equal lines", equal_lines),
    Family("long bars over small crosses", crosses, lambda n: n * n // 200),
    Family("zigzag in a unit of height", zigzag, lambda n: n * n // 4),
    Family("moved pentagons", pentagons, lambda n: n * n // 5),
    Family("locate, nested squares", located_nested),
    Family("locate, a star", located_star),
    Family("locate exactly, nested squares", exactly(located_nested)),
    Family("locate exactly, a star", exactly(located_star)),
    Family("needles", needles),
]


# ---- measuring


def built(folder: Path) -> Path:
    """The program of growth.c, over the library that stands in out/."""
    program = folder / "growth"
    words = ["cc", "-O2", "-std=gnu11", "-Wall", "-Wextra", "-Iinclude", "benches/growth.c", "out/libpolyover.a"]
    subprocess.run([*words, "-o", program], check=True)
    return program


def asked(words: list, text: str, limit: float) -> subprocess.CompletedProcess | None:
    """A run on an input; none where it takes too long."""
    try:
        ran = subprocess.run([str(it) for it in words], input=text, capture_output=True, text=True, timeout=limit)
    except subprocess.TimeoutExpired:
        return None
    if ran.returncode:
        raise SystemExit(f"{words[0]}: status {ran.returncode}: {ran.stderr.strip()[-300:]}")
    return ran


def cost_of(program: Path, text: str, given: argparse.Namespace) -> tuple[float, int] | None:
    """Instructions, or seconds, of the call, and the peak of memory in kilobytes."""
    words = [program, "rounds" if given.rounds else "snapped", "1" if given.instructions else given.times]
    if given.instructions:
        tool = ["valgrind", "--tool=callgrind", "--toggle-collect=asked", "--callgrind-out-file=/dev/null"]
        ran = asked([*tool, *words], text, given.limit)
        return ran and (float(COLLECTED.search(ran.stderr)[1]), 0)
    ran = asked(words, text, given.limit)
    return ran and (float(MEDIAN.search(ran.stderr)[1]), int(PEAK.search(ran.stderr)[1]))


def peer_cost(program: str, text: str, given: argparse.Namespace) -> float | None:
    """Seconds of a peer."""
    ran = asked([*program.split(), "--time", given.times, "--quiet"], text, given.limit)
    return ran and float(MEDIAN.search(ran.stderr)[1])


def shown(cost: float | None, is_time: bool) -> str:
    """A cost with its unit."""
    if cost is None:
        return "too long"
    if not is_time:
        return f"{cost / 1e6:,.1f} M"
    return f"{cost * 1e3:.3g} ms" if cost < 1 else f"{cost:.3g} s"


def exponent(first: float | None, last: float | None, ratio: float) -> str:
    """The power of the ratio by which the cost grows."""
    return "" if not (first and last) else f"{math.log(last / first) / math.log(ratio):.2f}"


def row_of(family: Family, program: Path, given: argparse.Namespace) -> str:
    """A row of the table."""
    sizes = [it * given.edges for it in SIZES]
    texts = ["\n".join(family.make(it)) + "\n" for it in sizes]
    costs = []
    for text in texts:
        costs.append(cost_of(program, text, given) if not costs or costs[-1] else None)
    first, last = costs[0], costs[-1]
    work = [it + family.meetings(it) for it in sizes]
    cells = [shown(it and it[0], not given.instructions) for it in costs]
    powers = [exponent(first and first[0], last and last[0], it) for it in (SIZES[-1], work[-1] / work[0])]
    peak = f"{last[1] / 1024:.0f} MB" if last and not given.instructions else ""
    beside = [shown(peer_cost(it.partition("=")[2], texts[0], given), True) for it in given.peer]
    return f"| {' | '.join([family.name, *cells, *powers, peak, *beside])} |"


def main() -> int:
    """Prints the table, or writes the inputs."""
    parser = argparse.ArgumentParser(description=__doc__, formatter_class=argparse.RawDescriptionHelpFormatter)
    parser.add_argument("--edges", type=int, default=1000, metavar="N", help="the least number of edges (1000)")
    parser.add_argument("--only", nargs="+", default=[], metavar="WORD", help="families with such a word in their name")
    parser.add_argument("--instructions", action="store_true", help="counts instructions")
    parser.add_argument("--rounds", action="store_true", help="splits by rounds")
    parser.add_argument("--times", type=int, default=3, metavar="N", help="runs, of which the median counts (3)")
    parser.add_argument("--limit", type=float, default=60, metavar="SECONDS", help="for a size (60)")
    parser.add_argument("--peer", nargs="+", default=[], metavar="NAME=PROGRAM", help="a peer, asked of n edges")
    parser.add_argument("--write", type=Path, metavar="FOLDER", help="writes the inputs there")
    given = parser.parse_args()
    families = [it for it in FAMILIES if not given.only or any(word in it.name for word in given.only)]
    if given.write:
        given.write.mkdir(parents=True, exist_ok=True)
        for it in families:
            file = given.write / f"{it.name.replace(' ', '_').replace(',', '')}.txt"
            file.write_text("\n".join(it.make(given.edges)) + "\n")
        return 0
    names = [it.partition("=")[0] for it in given.peer]
    heads = [f"{it * given.edges:,} edges" for it in SIZES]
    titles = ["Family", *heads, "Power of edges", "and of meetings", "Memory", *(f"{it}, {heads[0]}" for it in names)]
    print(f"| {' | '.join(titles)} |\n|{'---|' * len(titles)}")
    with tempfile.TemporaryDirectory(prefix="growth-") as folder:
        program = built(Path(folder))
        for it in families:
            print(row_of(it, program, given), flush=True)
    return 0


if __name__ == "__main__":
    sys.exit(main())
