#!/usr/bin/env python3
"""Feeds the program polyover with inputs by families, and checks its answers by properties (`checks.py`).

    fuzz.py --program PROGRAM --minutes N [--solvers] [--seed N] [--family NAME ..] [--findings FOLDER]

With --solvers the library for C answers each input of a geometry too, by either solver (`solved.py`): all that holds of
the program's answers must hold of these, snap rounding must settle, and areas are held against those of the input on a
finer grid. Each case is a number: `--case N` runs the one alone. A run has SECONDS and MEMORY. What fails is printed
with the number of its case, and its input is left in FOLDER. The status is 1 where anything failed.
"""

import argparse
import resource
import subprocess
import sys
import time
from collections import Counter
from pathlib import Path
from random import Random

from build import add_program_option, program_of
from checks import (
    Wrong,
    area_in,
    area_of,
    begun_anew,
    check_area,
    check_arrangement,
    check_in_cells,
    check_links,
    check_pieces,
    check_relations,
    check_shapes,
    check_simple,
    contours_in,
    fills_of,
    first_bad_line,
    first_unresolved,
    line_of_misfit,
    locations_in,
    must,
    path_of,
    shapes_of,
    steps_in,
)
from families import GEOMETRY, Figures, grid_lines, sides_of_cells
from plane import FILL_RULES, LARGEST, OVERLAY_RULES
from solved import HALVES, Solved

SECONDS = 20
MEMORY = 2**30
# areas are held against those on a grid that is this many times as fine
SCALE = 2**20
UNSETTLED = (1, b"refused E2\n")


class Program:
    """The program, which is run on inputs; it counts the runs and keeps the last input."""

    name = "program"
    halves = 64

    def __init__(self, path):
        self.path = path
        self.runs = 0
        self.slowest = 0.0
        self.last = b""
        self.asked_at = 0.0

    def end_of(self, data):
        """Status, output and words of a run, which ends in time and never by a signal."""
        self.runs, self.last, begun = self.runs + 1, data, time.monotonic()
        self.asked_at = begun
        try:
            ran = subprocess.run([self.path], input=data, capture_output=True, timeout=SECONDS, check=False)
        except subprocess.TimeoutExpired as late:
            raise Wrong(f"no end after {SECONDS} seconds") from late
        self.slowest = max(self.slowest, time.monotonic() - begun)
        must(ran.returncode in (0, 1, 2, 3), f"status {ran.returncode}")
        must(ran.returncode == 0 or not ran.stdout, "output without an answer")
        must(bool(ran.stderr) == bool(ran.returncode), f"words {ran.stderr[:80]!r} at status {ran.returncode}")
        return ran.returncode, ran.stdout, ran.stderr

    def answer(self, lines, query):
        """The answer to a query; none where splitting does not settle."""
        status, written, said = self.end_of("\n".join([*lines, f"run {query}", ""]).encode())
        if (status, said) == UNSETTLED:
            return None
        must(status == 0, f"status {status}, {said[:80]!r}")
        return written.decode()

    def must_misfit(self, lines, query):
        """The query's grid does not fit, which is a bad line."""
        status, _, said = self.end_of("\n".join([*lines, f"run {query}", ""]).encode())
        must((status, said) == (2, f"line {len(lines) + 1}: bad input\n".encode()), f"{query} fits")


# ---- geometry


def lines_of(shapes):
    """A subject line for each contour."""
    return Figures(contours_in(shapes)).texts()


def shuffled(figures, random):
    """The same contours in another order, begun elsewhere."""

    def turned(path):
        start = random.randrange(len(path)) if path else 0
        return path[start:] + path[:start]

    both = (figures.subject, figures.clip)
    subject, clip = ([turned(it) for it in random.sample(paths, len(paths))] for paths in both)
    return Figures(subject, clip, figures.lines, figures.points).texts()


def check_overlays(program, lines, fills, fill_rule, random):
    """Each overlay by its windings, and their areas by one another; answers the areas, doubled."""
    areas = {}
    for rule in OVERLAY_RULES:
        text = program.answer(lines, f"overlay {rule} {fill_rule}")
        shapes = shapes_of(text)
        check_shapes(shapes, fills, rule, 1, random)
        areas[rule] = area_in(shapes)
    must(areas["Intersect"] + areas["Difference"] == areas["Subject"], "A and B, A minus B")
    must(areas["Intersect"] + areas["InverseDifference"] == areas["Clip"], "A and B, B minus A")
    must(areas["Union"] + areas["Intersect"] == areas["Subject"] + areas["Clip"], "A or B, A and B")
    must(areas["Xor"] == areas["Difference"] + areas["InverseDifference"], "A xor B")
    return areas


def check_options(program, lines, fills, fill_rule, random):
    """One overlay with its options, and the overlay of its own answer."""
    rule, least = random.choice(OVERLAY_RULES), random.choice((0, 1, 2, 5, 2**100))
    asked = f"{rule} {fill_rule}"
    options = ("", " keep", " ogc", " clockwise ogc", f" min {least}")
    plain, kept, grouped, turned, large = (program.answer(lines, f"overlay {asked}{it}") for it in options)
    shapes = shapes_of(plain)
    for text, sign in ((kept, 1), (grouped, 1), (turned, -1)):
        check_shapes(shapes_of(text), fills, rule, sign, random)
    check_simple(shapes_of(grouped))
    check_simple(shapes_of(turned))
    kept_contours = [it for it in contours_in(shapes_of(kept)) if abs(area_of(it)) // 2 >= least]
    must(len(contours_in(shapes_of(large))) <= len(kept_contours), "a contour below the minimum")
    for option in ("", " ogc"):
        hierarchy = program.answer(lines, f"hierarchy {asked}{option}")
        same = grouped if option else plain
        links = hierarchy[len(same):].splitlines()
        must(hierarchy.startswith(same) and all(it.startswith("link") for it in links), "other shapes")
        check_links(hierarchy, shapes_of(hierarchy))
    for again in ("EvenOdd", "NonZero", "Positive"):
        anew = shapes_of(program.answer(lines_of(shapes), f"overlay Subject {again}"))
        must(begun_anew(anew) == begun_anew(shapes), f"its own answer, {again}")


def check_relate(program, figures, lines, fills, fill_rule, areas):
    """The relations, told of the contours and of the exchanged ones."""
    exchanged = Figures(figures.clip, figures.subject).texts()
    told = [program.answer(it, f"relate {fill_rule}") for it in (lines, exchanged)]
    if None not in told:
        rows = [dict(line.split() for line in text.splitlines()) for text in told]
        rows = [{name: word == "true" for name, word in row.items()} for row in rows]
        check_relations(rows[0], rows[1], areas, fills)


def check_strings(program, figures, lines, fill_rule, area, random):
    """Clips by their pieces, and slices by their windings and their area."""
    inside, outside = ("", " boundary"), (" invert", " invert boundary")
    clips = [[program.answer(lines, f"clip {fill_rule}{it}") for it in pair] for pair in (inside, outside)]
    if None not in clips[0] + clips[1]:
        check_pieces(*([[path_of(line) for line in text.splitlines()] for text in pair] for pair in clips))
    text = program.answer(lines, f"slice {fill_rule}")
    if text is not None:
        check_slices(program, shapes_of(text), area if figures.is_exact else None, random)


def check_slices(program, shapes, area, random):
    """Slices by their windings, and by their area, doubled, where it is known."""
    check_simple(shapes)
    must(area in (None, area_in(shapes)), "the area of the slices")
    whole = program.answer(lines_of(shapes), "edges Positive")
    if shapes and whole is not None:
        check_shapes(shapes, fills_of(whole), "Subject", 1, random)


def check_tiles(program, figures, lines, fill_rule, area, random):
    """Tiles are the slices along the lines of their grid, each contour in one cell; or the grid does not fit."""
    sides = sides_of_cells(figures.subject, random)
    query = f"tiles {fill_rule} {sides[0]} {sides[1]}"
    cuts = grid_lines(figures.subject, *sides)
    if cuts is None:
        program.must_misfit(lines, query)
        return
    text = program.answer(lines, query)
    must(text == program.answer(Figures(figures.subject, lines=cuts).texts(), f"slice {fill_rule}"), f"{query}, slices")
    if text is not None:
        check_in_cells(shapes_of(text), *sides)
        check_slices(program, shapes_of(text), area if figures.is_exact else None, random)


def check_points(program, figures, lines):
    """Where points lie, or the first subject that is not resolved."""
    bad, located = first_unresolved(figures), locations_in(figures.subject, figures.points)
    for query in ("contains", "locate"):
        status, written, said = program.end_of("\n".join([*lines, f"run {query}", ""]).encode())
        if bad:
            must((status, said) == (2, f"line {bad}: bad input\n".encode()), f"line {bad} is not resolved")
            continue
        must(status == 0, f"status {status}, {said[:80]!r}")
        told = written.decode().split()
        if query == "locate":
            must(told == located, f"located {told} and not {located}")
        else:
            pairs = [it for it in zip(told, located, strict=True) if it[1] != "boundary"]
            must(all((one == "true") == (other == "inside") for one, other in pairs), f"contained {told}")


def check_answers(program, figures, fill_rule, random):
    """All commands on figures but those of points; the text of the edges, or none where splitting does not settle."""
    lines = figures.texts()
    text = program.answer(lines, f"edges {fill_rule}")
    if text is None:
        must(not figures.is_exact, "edges that meet in whole points do not settle")
        return None
    fills, given = fills_of(text), (steps_in(figures.subject), steps_in(figures.clip))
    check_arrangement(text, fills, given, fill_rule, figures, random, program.halves)
    must(program.answer(shuffled(figures, random), f"edges {fill_rule}") == text, "other edges of shuffled contours")
    areas = check_overlays(program, lines, fills, fill_rule, random)
    check_options(program, lines, fills, fill_rule, random)
    check_relate(program, figures, lines, fills, fill_rule, areas)
    check_strings(program, figures, lines, fill_rule, areas["Subject"], random)
    check_tiles(program, figures, lines, fill_rule, areas["Subject"], random)
    return text, areas


def check_solvers(solvers, figures, fill_rule, random):
    """All answers of the library by each solver; which of them settled."""
    answers = {it.name: check_answers(it, figures, fill_rule, random) for it in solvers}
    finer = finer_than(figures, SCALE)
    if finer and solvers:
        rule = random.choice(OVERLAY_RULES)
        fine = area_in(shapes_of(solvers[0].answer(finer.texts(), f"overlay {rule} {fill_rule}")))
        for it in solvers:
            if answers[it.name]:
                check_area(answers[it.name][1][rule], fine, SCALE, steps_in(figures.subject + figures.clip), it.halves)
    texts = {answer[0] for answer in answers.values() if answer}
    must(not figures.is_exact or len(texts) <= 1, "two arrangements of edges that meet in whole points")
    return {name: answer is not None for name, answer in answers.items()}


def finer_than(figures, scale):
    """The contours on a grid that is `scale` times as fine; none where that leaves the range."""
    paths = figures.subject + figures.clip
    if any(abs(number) * scale > LARGEST for path in paths for point in path for number in point):
        return None

    def finer(paths):
        return [[(x * scale, y * scale) for x, y in path] for path in paths]

    return Figures(finer(figures.subject), finer(figures.clip))


def check_geometry(program, solvers, family, random):
    """All commands on the figures of a family; whether splitting settled, by the program and by each solver."""
    figures = GEOMETRY[family](random)
    fill_rule = random.choice(FILL_RULES)
    check_points(program, figures, figures.texts())
    settled = {program.name: check_answers(program, figures, fill_rule, random) is not None}
    return settled | check_solvers(solvers, figures, fill_rule, random)


# ---- lines


PUT_IN = (b" ", b"-", b"+1", b"\r", b"\n", b"\r\n", b"\xff", b"\t", b"0", b"run ", b"\x00", b"ogc ", b"min ")
NUMBERS = (2**62 - 1, 2**62, -(2**62), 2**63, 2**64, 10**40, 2**127 - 1, 2**127)
OPTIONS = ("", " ogc", " min 3 keep", " clockwise")
OF_RULES = [f"{rule} {fill}{option}" for rule in OVERLAY_RULES for fill in FILL_RULES for option in OPTIONS]
OF_FILLS = [f"{name} {fill}" for name in ("edges", "relate", "slice", "clip") for fill in FILL_RULES]
OF_SIDES = [f"tiles {fill} {sides}" for fill in FILL_RULES for sides in ("2 3", "1 9", f"{LARGEST} {LARGEST // 3}")]
OF_NONE = ["contains", "locate"]
QUERIES = [*(f"{name} {it}" for name in ("overlay", "hierarchy") for it in OF_RULES), *OF_FILLS, *OF_SIDES, *OF_NONE]


def spoiled(data, random):
    """The input with some bytes changed, lost, doubled or put in."""
    data = bytearray(data)
    for _ in range(random.randint(1, 3)):
        place = random.randrange(len(data) + 1)
        how = random.randrange(5)
        if how == 0:
            data[place:place] = random.choice(PUT_IN)
        elif how == 1:
            del data[place:place + random.randint(1, 4)]
        elif how == 2:
            data[place:place] = data[place:place + random.randint(1, 30)]
        elif how == 3:
            data[place:place + 1] = bytes([random.randrange(256)])
        else:
            data[place:place] = str(random.choice(NUMBERS)).encode()
    return bytes(data)


def check_malformed(program, random):
    """Spoiled lines: the first bad one is named, and good ones are answered, whatever their spaces and ends."""
    figures = GEOMETRY[random.choice(("small_grid", "ends"))](random)
    query = random.choice(QUERIES)
    data = spoiled("\n".join([*figures.texts(), f"run {query}", ""]).encode(), random)
    status, _, said = program.end_of(data)
    bad = first_bad_line(data) or line_of_misfit(data)
    if bad:
        is_named = (status, said) == (2, f"line {bad}: bad input\n".encode())
        must(is_named, f"line {bad} is bad, and not {status}, {said[:80]!r}")
    else:
        # (a subject of these two may not be resolved)
        is_of_points = data.rstrip(b" \r\n").endswith((b"contains", b"locate"))
        must(status in (0, 1) or is_of_points, f"status {status}, {said[:80]!r}")
    return True


def check_huge(program, random):
    """Long lines, many lines and huge numbers; answers where the program gives them in time."""
    size = random.choice((10**3, 10**5, 10**6, 10**7))
    word = random.choice(("subject", "clip", "line"))
    make = random.randrange(6)
    if make == 0:
        data, bad = word.encode() + b" 0 0 4 0 4 4 0 4" * (size // 16) + b"\nrun overlay Union NonZero\n", None
    elif make == 1:
        data, bad = b"point 1 1\n" * min(size // 10, 10**5) + b"subject 0 0 9 0 0 9\nrun locate\n", None
    elif make == 2:
        data, bad = b"subject " + b"9" * size + b" 0\nrun edges NonZero\n", 1
    elif make == 3:
        data, bad = b"subject " + b"0" * size + b" 0 1 0 0 1\nrun edges NonZero\n", None
    elif make == 4:
        data, bad = b" " * size + b"\n" * min(size, 10**5) + b"run edges NonZero", None
    else:
        lefts = range(0, 5 * min(size // 20, 10**5), 5)
        squares = b"".join(b"subject %d 0 %d 0 %d 4 %d 4\n" % (x, x + 4, x + 4, x) for x in lefts)
        data, bad = squares + b"run overlay Union EvenOdd\n", None
    status, _, said = program.end_of(data)
    must((status, said) == ((2, b"line 1: bad input\n") if bad else (0, b"")), f"status {status}, {said[:80]!r}")
    return True


# ---- runs

LINES = {"malformed": check_malformed, "huge": check_huge}
CASES = [*GEOMETRY] * 20 + ["malformed"] * 60 + ["huge"]


def run_case(program, solvers, seed, number, families):
    """Runs one case, and answers its family, and who answered it and whether splitting settled there."""
    random = Random(f"{seed}/{number}")
    family = random.choice([it for it in CASES if it in families])
    if family in LINES:
        return family, {program.name: LINES[family](program, random)}
    return family, check_geometry(program, solvers, family, random)


def main():
    """Runs cases until the time is up, and tells what failed."""
    parser = argparse.ArgumentParser(description=__doc__, formatter_class=argparse.RawDescriptionHelpFormatter)
    add_program_option(parser)
    parser.add_argument("--minutes", type=float, default=1, help="how long")
    parser.add_argument("--solvers", action="store_true", help="ask the library too, by either solver")
    parser.add_argument("--seed", type=int, default=1)
    parser.add_argument("--family", nargs="+", default=sorted(set(CASES)), choices=sorted(set(CASES)))
    parser.add_argument("--case", type=int, help="one case alone")
    parser.add_argument("--findings", type=Path, default=Path("findings"), help="a folder for inputs that fail")
    given = parser.parse_args()
    sys.set_int_max_str_digits(0)
    # (a limit on this process is one on each program that it runs)
    resource.setrlimit(resource.RLIMIT_AS, (MEMORY, MEMORY))
    program, counts, failed = Program(program_of(parser, given)), Counter(), 0
    solvers = [Solved(name) for name in HALVES] if given.solvers else []
    ends, number = time.monotonic() + 60 * given.minutes, given.case or 0
    while time.monotonic() < ends:
        try:
            family, settled = run_case(program, solvers, given.seed, number, given.family)
            for name, is_settled in settled.items():
                counts[f"{family}, {name}{'' if is_settled else ', unsettled'}"] += 1
        except Exception as error:
            failed += 1
            given.findings.mkdir(parents=True, exist_ok=True)
            asked = max([program, *solvers], key=lambda it: it.asked_at)
            (given.findings / f"{given.seed}_{number}.txt").write_bytes(asked.last)
            print(f"case {number}: {type(error).__name__} {error}", flush=True)
        if given.case is not None:
            break
        number += 1
    print(f"{number} cases, {program.runs} runs, the slowest {program.slowest:.1f} seconds, {failed} failed")
    for it in solvers:
        print(f"{it.runs} calls of the library, {it.name}")
    print("\n".join(f"  {name}: {count}" for name, count in sorted(counts.items())))
    return 1 if failed else 0


if __name__ == "__main__":
    sys.exit(main())
