#!/usr/bin/env python3
"""Overlays two large layers cell by cell, on the workers of GNU parallel or of a Dask cluster.

    tiles.py --subject FILE .. --clip FILE .. --grid W H --engine parallel --workers 4 > ANSWER
    tiles.py --subject FILE .. --clip FILE .. --grid W H --engine dask --scheduler ADDRESS > ANSWER

A layer is one file or several, of lines `subject x y ..` as the program polyover reads them; several stand for the
union of what each of them fills. Each file is cut by the same grid (`run tiles`), the contours are sorted by their
cells, each cell is overlaid by itself (`run overlay`), and the answers are printed one behind the other, cell by
cell: shapes, each in one cell.
"""

import argparse
import functools
import os
import subprocess
import sys
import tempfile
import time
from pathlib import Path

BUILT = Path(__file__).resolve().parents[2] / "crates" / "polyover" / "out" / "polyover"
LAYERS = ("subject", "clip")


# ---- the engines: each gives the answers of the program to many inputs


def answer_of(program, text):
    """What the program answers to an input."""
    ran = subprocess.run([program], input=text, capture_output=True, text=True, check=False)
    if ran.returncode:
        raise RuntimeError(f"{program}: status {ran.returncode} {ran.stderr.strip()}")
    return ran.stdout


def answers_by_parallel(given, texts):
    """The answers by GNU parallel, which runs `workers` programs at a time; inputs and answers are files."""
    words = ["parallel", "--will-cite", "--jobs", str(given.workers), "--halt", "now,fail=1", "--ungroup"]
    with tempfile.TemporaryDirectory() as folder:
        inputs = [Path(folder, str(place)) for place in range(len(texts))]
        for path, text in zip(inputs, texts):
            path.write_text(text)
        names = "".join(f"{path}\n" for path in inputs)
        ran = subprocess.run([*words, f"'{given.program}' < {{}} > {{}}.answer"], input=names, text=True, check=False)
        if ran.returncode:
            raise SystemExit(f"parallel: status {ran.returncode}")
        return [path.with_suffix(".answer").read_text() for path in inputs]


def answers_by_dask(given, texts):
    """The answers by the Dask cluster with this scheduler, or else by `workers` processes on this machine."""
    return given.client.gather(given.client.map(functools.partial(answer_of, given.program), texts, pure=False))


def client_of(given):
    """A client of the Dask cluster."""
    import distributed  # pylint: disable=import-outside-toplevel

    if given.scheduler:
        return distributed.Client(given.scheduler)
    cluster = distributed.LocalCluster(n_workers=given.workers, threads_per_worker=1, dashboard_address=None)
    return distributed.Client(cluster)


ENGINES = {"parallel": answers_by_parallel, "dask": answers_by_dask}


# ---- cells


def contours_in(answer):
    """The contours of an answer, each a line of numbers."""
    return [line for line in answer.splitlines() if line != "shape"]


def cell_of(contour, grid):
    """The cell in which a contour lies: that of the middle of its box, which lies on no line of the grid."""
    numbers = [int(number) for number in contour.split()]
    spans = (numbers[0::2], numbers[1::2])
    return tuple((min(span) + max(span)) // (2 * side) for span, side in zip(spans, grid))


def sorted_by_cells(layers, grid):
    """For each cell that has a contour, in order, the lines of an input with its contours of both layers."""
    cells = {}
    for name, answers in zip(LAYERS, layers):
        for contour in (contour for answer in answers for contour in contours_in(answer)):
            cells.setdefault(cell_of(contour, grid), []).append(f"{name} {contour}\n")
    return ["".join(cells[cell]) for cell in sorted(cells)]


# ---- the overlay


def timed(given, what, call):
    """What a call gives; with --times the seconds that it took are told."""
    began = time.monotonic()
    found = call()
    if given.times:
        print(f"{what}: {time.monotonic() - began:.2f} s", file=sys.stderr)
    return found


def cut_layers(given):
    """For both layers, the answers of the program that cuts their files by the grid."""
    run = f"run tiles {given.fill} {given.grid[0]} {given.grid[1]}\n"
    texts = [f"{path.read_text()}\n{run}" for path in [*given.subject, *given.clip]]
    answers = ENGINES[given.engine](given, texts)
    return answers[: len(given.subject)], answers[len(given.subject) :]


def overlaid(given):
    """The answer: the shapes of all cells."""
    layers = timed(given, "cut", lambda: cut_layers(given))
    cells = timed(given, "sorted", lambda: sorted_by_cells(layers, given.grid))
    texts = [f"{cell}run overlay {given.rule} NonZero\n" for cell in cells]
    return "".join(timed(given, f"{len(cells)} cells", lambda: ENGINES[given.engine](given, texts)))


def options():
    """The options of the command line."""
    parser = argparse.ArgumentParser(description=__doc__, formatter_class=argparse.RawDescriptionHelpFormatter)
    parser.add_argument("--subject", type=Path, nargs="+", required=True, metavar="FILE", help="the one layer")
    parser.add_argument("--clip", type=Path, nargs="+", required=True, metavar="FILE", help="the other layer")
    parser.add_argument("--grid", type=int, nargs=2, required=True, metavar=("W", "H"), help="the sides of a cell")
    parser.add_argument("--rule", default="Intersect", help="the rule of `run overlay` (Intersect)")
    parser.add_argument("--fill", default="NonZero", help="what a file's contours fill (NonZero)")
    parser.add_argument("--engine", choices=ENGINES, default="parallel")
    parser.add_argument("--workers", type=int, default=os.cpu_count(), metavar="N", help="number of runs at a time")
    parser.add_argument("--scheduler", metavar="ADDRESS", help="of a Dask cluster; without it one is started here")
    program = os.environ.get("POLYOVER_PROGRAM") or str(BUILT)
    parser.add_argument("--program", default=program, help="the path of polyover, on each worker")
    parser.add_argument("--times", action="store_true", help="tell on standard error how long each step took")
    return parser.parse_args()


def main():
    """Prints the answer."""
    given = options()
    if given.engine == "parallel":
        sys.stdout.write(overlaid(given))
    else:
        with client_of(given) as given.client:
            sys.stdout.write(overlaid(given))


if __name__ == "__main__":
    main()
