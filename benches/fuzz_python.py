#!/usr/bin/env python3
"""Feeds the Python module and its command line with broken files, types and values, for as long as it is told to.

    fuzz_python.py --minutes N [--seed N] [--case N]

A call must answer or raise a PolyoverError, a command must end with status 0 or 1 and lines of its own on standard
error, and leave its files whole: as they were, or an answer. None may take longer than 20 seconds. What does not is
named by its case, which `--case N` with the same seed runs again. It asks what POLYOVER_LIBRARY or POLYOVER_PROGRAM
names, as the module does.
"""

import argparse
import contextlib
import copy
import io
import json
import random
import signal
import sys
import tempfile
import time
import traceback
import warnings
from array import array
from collections import Counter
from pathlib import Path

ROOT = Path(__file__).resolve().parent.parent
sys.path.insert(0, str(ROOT / "python"))

import polyover  # noqa: E402  pylint: disable=wrong-import-position
from polyover.__main__ import main as run_command  # noqa: E402  pylint: disable=wrong-import-position
from polyover.text import FILLS, RULES  # noqa: E402  pylint: disable=wrong-import-position

LIMIT = 20
FAR = 2**62 - 1
WORDS = "subject clip line point run 0 4 -4 7 x 1.5 overlay Union EvenOdd ogc edges NonZero tiles slice relate".split()
WORDS += ["min", "locate", str(FAR), str(FAR + 1)] + ["\n"] * 5 + ["\r\n"]
JUNK = (None, True, False, 0, 5, -1, 0.5, -0.0, float("nan"), float("inf"), -float("inf"), 1e308, 5e-324, 10**30, -FAR,
        "", "x", "12", "\ud800", "Polygon", "Feature", b"x", [], {}, [[]], [None], [[[]]], {"type": "Polygon"}, (0, 0),
        {1: 2}, {"a"}, object(), int, range(3), 2j, array("q", [0, 0, 4, 0]), array("d", [1.5]), bytearray(16))
MEMBERS = ("type", "features", "geometry", "coordinates", "properties", "geometries", "id", "bbox", "crs", "name")
FLAGS = ("--skip-invalid", "--digits 2", "--digits -1", "--digits 17", "--fill evenodd", "--fill negative")
FLAGS_OF = {"clip": ("--invert", "--boundary"), "overlay": ("--rule xor", "--rule intersect --keep", "--min-area 2")}
FLAGS_OF["simplify"] = ("--min-area 0.5",)
POINTS = ("Point", "MultiPoint")
# (what the second file of a command has)
OTHER_OF = {"clip": ("LineString", "MultiLineString"), "locate": POINTS}
OTHER_OF["slice"] = OTHER_OF["clip"]
CALLS = ("overlay", "hierarchy", "simplify", "edges", "relate", "clip", "slice", "tiles", "locate", "is_resolved")
READERS = ("contours_of", "lines_of")
AREAS, LINES = ("Polygon", "MultiPolygon"), ("LineString", "MultiLineString")
OTHERS = ("Point", "MultiPoint", "GeometryCollection", *AREAS, *LINES)
# (the ones that JSON has)
PLAIN = [each for each in JUNK if isinstance(each, (int, float, str, list, type(None)))]


class TooLong(BaseException):
    """A case takes too long."""


def too_long(*_):
    """Ends a case that takes too long."""
    raise TooLong


# ---- what is fed


def number(chance, size):
    """A coordinate."""
    if chance.random() < 0.02:
        return chance.choice((FAR, -FAR, FAR + 1, 1e18, -1e300, 1e-300, 0.1, 2**53 + 1))
    value = chance.uniform(-size, size)
    return chance.choice((round(value), round(value, 2), value))


def point(chance, size):
    """A point, sometimes with a height."""
    return [number(chance, size) for _ in range(2 + (chance.random() < 0.03))]


def ring(chance, size):
    """A ring, most often closed, sometimes of few points."""
    x, y = point(chance, size)[:2]
    kind = chance.randrange(4)
    if kind == 0:
        points = [point(chance, size) for _ in range(chance.randint(0, 7))]
    else:
        wide, high = chance.uniform(-size, size), chance.uniform(-size, size)
        points = [[x, y], [x + wide, y], [x + wide, y + high], [x, y + high]]
    return points + points[: chance.randint(0, 1)]


def geometry(chance, size, kinds, depth=0):
    """A geometry, most often of these kinds."""
    kind = chance.choice(kinds if chance.random() < 0.9 else OTHERS)
    rings = [[ring(chance, size) for _ in range(chance.randint(0, 3))] for _ in range(chance.randint(0, 3))]
    if kind == "GeometryCollection":
        some = [geometry(chance, size, kinds, depth + 1) for _ in range(chance.randint(0, 3))] if depth < 4 else []
        return {"type": kind, "geometries": some}
    first = rings[0] if rings else []
    made = {"Polygon": first, "MultiPolygon": rings, "MultiLineString": first, "LineString": ring(chance, size)}
    made["MultiPoint"] = made["LineString"]
    return {"type": kind, "coordinates": made[kind] if kind in made else point(chance, size)}


def file_thing(chance, kinds=AREAS):
    """What a file of GeoJSON has."""
    size = chance.choice((3, 10, 1000, 1e7))
    if chance.random() < 0.2:
        return geometry(chance, size, kinds)
    features = []
    for at in range(chance.randint(0, 4)):
        its = None if chance.random() < 0.1 else geometry(chance, size, kinds)
        features.append({"type": "Feature", "id": at, "properties": {"name": at}, "geometry": its})
    return {"type": "FeatureCollection", "features": features}


def spoiled(chance, thing, junk):
    """A thing with some parts exchanged, left out or put in."""
    thing = copy.deepcopy(thing)
    for _ in range(chance.randint(0, 3)):
        here = thing
        for _ in range(chance.randint(0, 9)):
            items = here.values() if isinstance(here, dict) else here
            inner = [each for each in items if isinstance(each, (dict, list))]
            if not inner:
                break
            here = chance.choice(inner)
        spoil(chance, here, junk)
    return thing


def spoil(chance, here, junk):
    """Exchanges, drops or adds a member."""
    keys = list(here) if isinstance(here, dict) else list(range(len(here)))
    way = chance.randrange(3)
    if way == 0 and keys:
        del here[chance.choice(keys)]
    elif way == 1 and keys:
        here[chance.choice(keys)] = copy.deepcopy(chance.choice(junk))
    elif isinstance(here, dict):
        here[chance.choice(MEMBERS)] = copy.deepcopy(chance.choice(junk))
    else:
        here.insert(chance.randint(0, len(here)), copy.deepcopy(chance.choice(junk)))


def file_text(chance, kinds):
    """The bytes of a file, good or bad."""
    thing = file_thing(chance, kinds)
    text = json.dumps(spoiled(chance, thing, PLAIN) if chance.random() < 0.4 else thing)
    way = chance.randrange(20)
    if way == 0:
        text = text[: chance.randint(0, len(text))]
    elif way == 1:
        at = chance.randint(0, len(text))
        text = text[:at] + chance.choice("[]{},:\"0e-.\x00\ufeff\ud7ffNaN") + text[at:]
    elif way == 2:
        text = chance.choice("[{\"") * chance.choice((1, 900, 5000)) + text
    elif way == 3:
        return bytes(chance.randrange(256) for _ in range(chance.randint(0, 40)))
    return text.encode("utf-8", "replace")


def contours(chance):
    """Contours as lists, or not."""
    size = chance.choice((3, 10, 1000, FAR))
    counts = [chance.randint(0, 6) for _ in range(3)]
    made = [[[chance.randint(-size, size) for _ in range(2)] for _ in range(count)] for count in counts]
    if chance.random() < 0.2:
        return in_arrays(chance, made)
    return spoiled(chance, made, JUNK) if chance.random() < 0.4 else made


def in_arrays(chance, paths):
    """Contours in arrays, or not."""
    numbers = array(chance.choice("qqqd"))
    ends = [chance.choice((0, -1, 1)) if chance.random() < 0.1 else 0]
    for path in paths:
        values = [value for point in path for value in point]
        numbers.extend(values)
        ends.append(ends[-1] + len(path))
    return polyover.Flat(numbers, array("Q", ends[1:]) if min(ends) >= 0 else ends)


def argument(chance, good):
    """An argument: a good one, mostly."""
    return good() if chance.random() < 0.92 else copy.deepcopy(chance.choice(JUNK))


# ---- the cases


def rest_of_call(chance, name):
    """The arguments of a call behind the first, and the named ones."""
    rest, named = [], {}
    if name in ("overlay", "hierarchy", "edges", "relate", "clip", "slice"):
        rest = [contours(chance)]
    elif name == "tiles":
        rest = [argument(chance, lambda: chance.randint(1, 99)) for _ in range(2)]
    elif name == "locate":
        rest = [[each for path in contours(chance) if isinstance(path, list) for each in path]]
    if name in ("overlay", "hierarchy") and chance.random() < 0.5:
        named["rule"] = argument(chance, lambda: chance.choice(list(RULES)))
    if name not in (*READERS, "locate", "is_resolved") and chance.random() < 0.5:
        named["fill"] = argument(chance, lambda: chance.choice(list(FILLS)))
    if name in ("overlay", "simplify", "clip", "slice", "tiles"):
        named["arrays"] = chance.random() < 0.3
    if name in ("overlay", "simplify", "hierarchy") and chance.random() < 0.3:
        named["minimum_area"] = argument(chance, lambda: chance.randint(0, 99))
    return rest, named


def case_of_call(chance, counts):
    """One call of the module."""
    name, owner = chance.choice((*CALLS, *READERS)), polyover
    try:
        if chance.random() < 0.5 and name != "lines_of":
            owner = polyover.Scaled(argument(chance, lambda: chance.choice((1, 100, 0.5, 10**7))))
        takes_geometry = name in READERS or owner is not polyover and chance.random() < 0.4
        thing = spoiled(chance, file_thing(chance), JUNK) if takes_geometry else contours(chance)
        rest, named = rest_of_call(chance, name)
        if owner is not polyover and name in ("slice", "tiles"):
            del named["arrays"]
        getattr(owner, name)(argument(chance, lambda: thing), *rest, **named)
        counts["calls answered"] += 1
    except polyover.PolyoverError as fault:
        counts[f"calls: {type(fault).__name__}"] += 1
        if not str(fault):
            raise AssertionError("a fault without a word") from fault


def case_of_command(chance, counts):
    """One command on files."""
    name = chance.choice(("overlay", "relate", "clip", "slice", "simplify", "tiles", "locate"))
    with tempfile.TemporaryDirectory() as folder:
        files = [Path(folder, each) for each in ("a", "b", "out", "svg")]
        for file, kinds in zip(files, (AREAS, OTHER_OF.get(name, AREAS))):
            file.write_bytes(file_text(chance, kinds))
        before = {each.name for each in Path(folder).iterdir()}
        alone = {"simplify": [], "tiles": [str(chance.choice((0, 100, 1000, 10**9))) for _ in range(2)]}
        words = [name, str(files[0]), *alone.get(name, [str(files[1])]), "--out", str(files[2])]
        if name != "relate" and chance.random() < 0.3:
            words += ["--svg", str(files[3])]
        for flag in (*FLAGS, *FLAGS_OF.get(name, ())):
            if chance.random() < 0.2:
                words += flag.split()
        said = io.StringIO()
        with contextlib.redirect_stderr(said):
            status = run_command(words)
        after = {each.name for each in Path(folder).iterdir()}
        counts[f"commands: status {status}"] += 1
        check_files(status, said.getvalue(), before, after, files)


def case_of_picture(chance, counts):
    """The picture of an input of the program, good or bad."""
    command = chance.choice(("slice NonZero", "edges EvenOdd", "clip Positive"))
    good = f"subject 0 0 4 0 4 4\nline 1 1 9 9\nrun {command}"
    bad = " ".join(chance.choice(WORDS) for _ in range(chance.randint(0, 30)))
    text = bad if chance.random() < 0.7 else good
    with tempfile.TemporaryDirectory() as folder:
        files = [Path(folder, each) for each in ("in", "unused", "out")]
        files[0].write_text(text)
        said = io.StringIO()
        with contextlib.redirect_stderr(said):
            status = run_command(["svg", str(files[0]), "--out", str(files[2]), *["--nodes"] * chance.randint(0, 1)])
        counts[f"pictures: status {status}"] += 1
        if status == 0:
            files[2].write_text('"a picture"')
        check_files(status, said.getvalue(), {"in"}, {each.name for each in Path(folder).iterdir()}, files)


def check_files(status, said, before, after, files):
    """That a command has ended as it should."""
    lines = said.splitlines()
    if status == 0:
        json.loads(files[2].read_text())
        if not after <= before | {"out", "svg"}:
            raise AssertionError(f"files are left: {after}")
    elif status != 1 or after != before or not lines:
        raise AssertionError(f"status {status}, {after}: {said}")
    if not all(line.startswith("polyover: ") for line in lines):
        raise AssertionError(f"words of another kind: {said}")


def run_case(seed, number, counts):
    """Runs one case; whether it ended as it should."""
    chance = random.Random(f"{seed}/{number}")
    signal.setitimer(signal.ITIMER_REAL, LIMIT)
    try:
        with warnings.catch_warnings():
            warnings.simplefilter("ignore")
            chance.choices((case_of_call, case_of_command, case_of_picture), (6, 4, 1))[0](chance, counts)
        return True
    except TooLong:
        print(f"case {number}: longer than {LIMIT} seconds", flush=True)
    except Exception:  # pylint: disable=broad-exception-caught
        print(f"case {number}:\n{traceback.format_exc()}", flush=True)
    finally:
        signal.setitimer(signal.ITIMER_REAL, 0)
    return False


def main():
    """Runs cases."""
    parser = argparse.ArgumentParser(description=__doc__, formatter_class=argparse.RawDescriptionHelpFormatter)
    parser.add_argument("--minutes", type=float, default=1)
    parser.add_argument("--seed", type=int, default=1)
    parser.add_argument("--case", type=int)
    given = parser.parse_args()
    signal.signal(signal.SIGALRM, too_long)
    counts, bad, slowest = Counter(), 0, 0.0
    if given.case is not None:
        return 0 if run_case(given.seed, given.case, counts) else 1
    start, case = time.monotonic(), 0
    while time.monotonic() - start < 60 * given.minutes and bad < 20:
        begun = time.monotonic()
        bad += not run_case(given.seed, case, counts)
        slowest = max(slowest, time.monotonic() - begun)
        case += 1
        if case % 10_000 == 0:
            print(f"{case} cases after {(time.monotonic() - start) / 60:.1f} minutes, {bad} bad", flush=True)
    print(f"{case} cases, {bad} bad, slowest {slowest:.1f} s")
    for name, count in sorted(counts.items()):
        print(f"  {name}: {count}")
    return 1 if bad else 0


if __name__ == "__main__":
    sys.exit(main())
