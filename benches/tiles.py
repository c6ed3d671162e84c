#!/usr/bin/env python3
"""Times examples/tiles on a made map, with each number of workers in turn, and prints a table in Markdown.

The map is two layers of triangles, counterclockwise, each in files of a part of it from the lowest to the highest.
"""

import argparse
import os
import re
import subprocess
import sys
import tempfile
import time
from pathlib import Path
from random import Random

from build import ROOT, add_program_option, program_of
from plane import area_of
from run import KINDS, SHAPES, contour_line, table_row

SCRIPT = ROOT / "examples" / "tiles" / "tiles.py"
EXTENT = 10**9
STEP = re.compile(r"^(cut|sorted|\d+ cells): ([\d.]+) s$", re.MULTILINE)


def layers_of(given):
    """The contours of both layers, from the lowest to the highest."""
    layers = {name: [] for name in SHAPES}
    for name, corners in KINDS["triangles"](given.edges, EXTENT, Random(given.seed)):
        layers[name].append(corners if area_of(corners) >= 0 else corners[::-1])
    return {name: sorted(contours, key=lambda it: min(y for _, y in it)) for name, contours in layers.items()}


def write_layers(layers, count, folder):
    """The words that name the files of both layers, each written to some files."""
    words = []
    for name, contours in layers.items():
        words.append(f"--{name}")
        for place in range(count):
            part = contours[len(contours) * place // count : len(contours) * (place + 1) // count]
            words.append(Path(folder, f"{name}{place}.txt"))
            words[-1].write_text("".join(f"{contour_line('subject', it)}\n" for it in part))
    return words


def processor_time():
    """The processor time of the runs that have ended."""
    return sum(os.times()[2:4])


def timed(words, **how):
    """The seconds by the clock and of the processors that a command takes, and what it says on standard error."""
    began, before = time.monotonic(), processor_time()
    ran = subprocess.run(words, stdout=subprocess.DEVNULL, stderr=subprocess.PIPE, text=True, check=True, **how)
    return time.monotonic() - began, processor_time() - before, ran.stderr


def print_table(given, folder):
    """Runs the script with each number of workers, and one run on the whole map where that is asked for."""
    layers = layers_of(given)
    side = 2 * EXTENT // given.cells
    words = [sys.executable, SCRIPT, "--program", given.program, "--grid", str(side), str(side), "--times"]
    words += ["--engine", given.engine, *write_layers(layers, given.files, folder)]
    print(table_row(("Workers", "Seconds", "Cut", "Sorted", "Cells overlaid", "Seconds of the processors")))
    print(table_row("---" for _ in range(6)), flush=True)
    for workers in given.workers:
        seconds, used, said = timed([*words, "--workers", str(workers)])
        steps = [step for _, step in STEP.findall(said)]
        print(table_row((workers, f"{seconds:.1f}", *steps, f"{used:.1f}")), flush=True)
    if given.whole:
        path = Path(folder, "whole.txt")
        lines = [f"{contour_line(name, contour)}\n" for name, contours in layers.items() for contour in contours]
        path.write_text("".join([*lines, "run overlay Intersect NonZero\n"]))
        with path.open() as reader:
            seconds, used, _ = timed([given.program], stdin=reader)
        print(table_row(("one run", f"{seconds:.1f}", "", "", "", f"{used:.1f}")))


def main():
    parser = argparse.ArgumentParser(description=__doc__, formatter_class=argparse.RawDescriptionHelpFormatter)
    add_program_option(parser)
    parser.add_argument("--edges", type=int, default=1_000_000, help="of both layers together")
    parser.add_argument("--files", type=int, default=16, help="of each layer")
    parser.add_argument("--cells", type=int, default=16, help="in each direction")
    parser.add_argument("--workers", type=int, nargs="+", default=[1, 2, 4], metavar="N")
    parser.add_argument("--engine", choices=("parallel", "dask"), default="parallel")
    parser.add_argument("--whole", action="store_true", help="also one `run overlay` on the whole map")
    parser.add_argument("--seed", type=int, default=1)
    given = parser.parse_args()
    given.program = program_of(parser, given)
    with tempfile.TemporaryDirectory() as folder:
        print_table(given, folder)


if __name__ == "__main__":
    main()
