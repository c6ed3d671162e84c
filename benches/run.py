#!/usr/bin/env python3
"""Times the program polyover on seeded inputs of growing size, and prints a table in Markdown."""

import argparse
import math
import subprocess
import tempfile
import threading
import time
from dataclasses import dataclass
from pathlib import Path
from random import Random

from build import add_program_option, program_of

DRAWING = Path(__file__).resolve().parent / "drawing.txt"
COMMANDS = {"edges": "run edges NonZero", "overlay": "run overlay Xor NonZero"}
SHAPES = ("subject", "clip")
LARGEST_COORDINATE = 4611686018427387903
RUNS = 3
COLUMNS = ("Input", "Kind", "Edges in", "Edges out", "Status", "Seconds", "Seconds above empty")


@dataclass(frozen=True)
class Input:
    """A text that the program reads, with its name and the kind of its contours."""

    name: str
    kind: str
    text: str


@dataclass(frozen=True)
class Run:
    """What one run took and gave; `status` is None where it was stopped at the limit."""

    seconds: float
    status: int | None
    message: str
    edges: int


# ---- the kinds of inputs: each gives contours, a shape with its points, within the extent


def square(left, bottom, side):
    """The corners of a square, counterclockwise."""
    right, top = left + side, bottom + side
    return [(left, bottom), (right, bottom), (right, top), (left, top)]


def grid_of_squares(edges, extent, random):
    """Squares on a grid, each half as wide again as its cell, so that neighbours overlap."""
    count = edges // 4
    columns = math.isqrt(count - 1) + 1
    half = extent // (columns + 1)
    for place in range(count):
        row, column = divmod(place, columns)
        corners = square(2 * half * column - extent, 2 * half * row - extent, 3 * half)
        yield random.choice(SHAPES), corners


def on_circle(radius, turn):
    """The whole point near the one at this part of a full turn on a circle round the origin."""
    unit = 1 << 53
    angle = 2 * math.pi * turn
    return tuple(radius * round(part * unit) // unit for part in (math.cos(angle), math.sin(angle)))


def star(points, extent, random, first_tip):
    """A star whose tips lie on one circle, and whose notches lie at random distances inside."""
    corners = []
    for place in range(points):
        is_tip = place % 2 == first_tip
        radius = extent if is_tip else random.randint(extent // 5, extent * 3 // 5)
        corners.append(on_circle(radius, place / points))
    return corners


def two_stars(edges, extent, random):
    """Two stars round one centre, the tips of one over the notches of the other."""
    points = edges // 4 * 2
    for first_tip, shape in enumerate(SHAPES):
        yield shape, star(points, extent, random, first_tip)


def nested_squares(edges, extent, random):
    """Squares round one centre, subject and clip by turns, each walked either way."""
    reaches = sorted(random.sample(range(1, extent + 1), edges // 4))
    for place, reach in enumerate(reaches):
        corners = square(-reach, -reach, 2 * reach)
        yield SHAPES[place % 2], corners[::random.choice((1, -1))]


def random_triangles(edges, extent, random):
    """Triangles at random places, the smaller the more there are, so that each meets a few others."""
    count = edges // 3
    reach = 2 * extent // (math.isqrt(count) + 1)
    for _ in range(count):
        center = [random.randint(reach - extent, extent - reach) for _ in "xy"]
        corners = [tuple(middle + random.randint(-reach, reach) for middle in center) for _ in "abc"]
        yield random.choice(SHAPES), corners


KINDS = {
    "grid": grid_of_squares,
    "stars": two_stars,
    "nested": nested_squares,
    "triangles": random_triangles,
}


# ---- inputs as texts


def contour_line(shape, points):
    """The line of a contour."""
    return " ".join([shape, *(str(coordinate) for point in points for coordinate in point)])


def input_text(contours, command):
    """The text of an input: its contours, and the command."""
    lines = [contour_line(shape, points) for shape, points in contours]
    return "".join(line + "\n" for line in [*lines, command])


def with_command(text, command):
    """The text of an input with this command in the place of its own."""
    lines = [line for line in text.splitlines() if not line.startswith("run ")]
    return "".join(line + "\n" for line in [*lines, command])


def seeded_input(kind, edges, options):
    """The input of a kind with about `edges` edges; the same for the same seed."""
    name = f"{kind}_{edges}"
    contours = KINDS[kind](edges, options.extent, Random(f"{options.seed} {name}"))
    return Input(name, kind, input_text(contours, COMMANDS[options.command]))


def all_inputs(options):
    """The inputs asked for: the seeded ones of each kind and size, and the drawing."""
    inputs = [
        seeded_input(kind, edges, options)
        for kind in KINDS
        for edges in options.edges
    ]
    drawing = with_command(DRAWING.read_text(), COMMANDS[options.command])
    inputs.append(Input("drawing", "drawing", drawing))
    return [each for each in inputs if not options.only or {each.name, each.kind} & set(options.only)]


def edges_in(text):
    """How many edges the contours of an input have: one for each point."""
    lines = [line.split() for line in text.splitlines()]
    return sum(len(words) // 2 for words in lines if words and words[0] in SHAPES)


def write_inputs(inputs, folder):
    """Writes each input to a file of its name."""
    folder.mkdir(parents=True, exist_ok=True)
    for each in inputs:
        (folder / f"{each.name}.txt").write_text(each.text)


# ---- runs


def edges_of_line(line):
    """How many edges a line of an answer tells of: one, or those of a contour, one for each point."""
    if line.startswith("edge "):
        return 1
    return 0 if line.startswith("shape") else len(line.split()) // 2


def count_edges(answer):
    """How many edges the program wrote."""
    with answer.open() as lines:
        return sum(edges_of_line(line) for line in lines)


def run_once(program, source, answer, limit):
    """One run of the program from one file to another, stopped at the limit in seconds."""
    with source.open("rb") as reader, answer.open("wb") as writer:
        start = time.perf_counter()
        process = subprocess.Popen([program], stdin=reader, stdout=writer, stderr=subprocess.PIPE)
        timer = threading.Timer(limit, process.kill)
        timer.start()
        message = process.communicate()[1].decode().strip()
        seconds = time.perf_counter() - start
        timer.cancel()
    status = None if process.returncode < 0 and seconds >= limit else process.returncode
    return Run(seconds, status, message, count_edges(answer))


def best_run(program, text, limit):
    """The fastest of the runs on an input; where one is stopped at the limit, no other follows."""
    runs = []
    with tempfile.TemporaryDirectory() as folder:
        source, answer = Path(folder, "input"), Path(folder, "answer")
        source.write_text(text)
        while len(runs) < RUNS and (not runs or runs[-1].status is not None):
            runs.append(run_once(program, source, answer, limit))
    return min(runs, key=lambda run: run.seconds)


# ---- the table


def table_row(cells):
    """A row of a table in Markdown."""
    return "| " + " | ".join(str(cell) for cell in cells) + " |"


def result_row(each, run, empty_seconds, limit):
    """The row of an input."""
    start = (each.name, each.kind, edges_in(each.text))
    if run.status is None:
        return table_row([*start, "", "stopped", f"over {limit:g} s", ""])
    status = f"{run.status} {run.message}".strip()
    above = run.seconds - empty_seconds
    return table_row([*start, run.edges, status, f"{run.seconds:.4f}", f"{above:.4f}"])


def print_table(inputs, options):
    """Runs the program on the empty input and on each other one, and prints a row as soon as it is known."""
    print(f"Seed {options.seed}, extent {options.extent}, best of {RUNS} runs, limit {options.limit:g} s.\n")
    print(table_row(COLUMNS))
    print(table_row("---" for _ in COLUMNS))
    empty = Input("empty", "empty", input_text([], COMMANDS[options.command]))
    empty_run = best_run(options.program, empty.text, options.limit)
    print(result_row(empty, empty_run, empty_run.seconds, options.limit), flush=True)
    for each in inputs:
        run = best_run(options.program, each.text, options.limit)
        print(result_row(each, run, empty_run.seconds, options.limit), flush=True)


def read_options():
    """The options of the command line."""
    parser = argparse.ArgumentParser(description=__doc__)
    add_program_option(parser)
    parser.add_argument("--command", choices=COMMANDS, default="overlay", help="what the program is asked for")
    parser.add_argument("--limit", type=float, default=60, metavar="SECONDS", help="stop a run after so long")
    parser.add_argument("--edges", type=int, nargs="+", default=[100, 1000, 10000], help="sizes of the inputs")
    parser.add_argument("--extent", type=int, default=10**9, help="the largest coordinate without sign")
    parser.add_argument("--seed", type=int, default=1)
    parser.add_argument("--only", nargs="+", metavar="NAME", help="only inputs of these names or kinds")
    parser.add_argument("--write", type=Path, metavar="FOLDER", help="only write the inputs to this folder")
    options = parser.parse_args()
    if options.extent > LARGEST_COORDINATE or min(options.edges) < 12 or options.extent < max(options.edges):
        parser.error(f"at least 12 edges, and an extent from their number up to {LARGEST_COORDINATE}")
    if options.write is None:
        options.program = program_of(parser, options)
    return options


def main():
    """Writes the inputs, or times the program on them."""
    options = read_options()
    inputs = all_inputs(options)
    if options.write is not None:
        write_inputs(inputs, options.write)
    else:
        print_table(inputs, options)


if __name__ == "__main__":
    main()
