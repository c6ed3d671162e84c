#!/usr/bin/env python3
"""Times small calls of Python beside shapely, and prints tables in Markdown: microseconds of processor time a call.

    /usr/bin/python3 benches/small.py [--points 4 8 32 128]     by Debian's shapely and the library in out/

Each call is the intersection of two stars with that many corners, in turn far and near, moved a little, or whether they
intersect. The columns are `Scaled.overlay`, or `Scaled.intersects`, of shapely's polygons, with an answer that is made
shapely's again, of GeoJSON and of lists of points. Each figure is the least of `--times` rounds, and the rounds of all
columns come in turn.
"""

import argparse
import sys
from math import cos, pi, sin
from time import process_time

from build import ROOT

sys.path.insert(0, str(ROOT / "python"))
# pylint: disable=wrong-import-position
import polyover  # noqa: E402
from run import table_row  # noqa: E402

try:
    from shapely import wkb
    from shapely.geometry import Polygon, mapping
except ImportError:
    raise SystemExit("no shapely here: /usr/bin/python3 has Debian's python3-shapely") from None

SCALED = polyover.Scaled.of_digits(7)
# seconds of a round
LONG = 0.01


def star(points, x, y):
    """The corners of a star round a point."""
    turns = [2 * pi * at / points + 0.1 for at in range(points)]
    return [(x + (1, 0.4)[at % 2] * cos(turn), y + (1, 0.4)[at % 2] * sin(turn)) for at, turn in enumerate(turns)]


def calls_of(points):
    """The calls that are timed, by their names, of an overlay and of a relation."""
    rings = star(points, 0, 0), star(points, 0.31, 0.17)
    one, other = map(Polygon, rings)
    geojson = [{**mapping(each), "coordinates": [list(map(list, mapping(each)["coordinates"][0]))]} for each in
               (one, other)]
    lists = [rings[0]], [rings[1]]
    overlay, intersects = SCALED.overlay, SCALED.intersects
    overlays = {
        "shapely": lambda: one.intersection(other),
        "of shapely's polygons": lambda: overlay(one, other, "intersect"),
        "shapely's again": lambda: wkb.loads(overlay(one, other, "intersect").wkb),
        "of GeoJSON": lambda: overlay(*geojson, "intersect"),
        "of lists": lambda: overlay(*lists, "intersect"),
    }
    relations = {
        "shapely": lambda: one.intersects(other),
        "of shapely's polygons": lambda: intersects(one, other),
        "of GeoJSON": lambda: intersects(*geojson),
        "of lists": lambda: intersects(*lists),
    }
    return {"overlay": overlays, "intersects": relations}


def seconds_of(call, count):
    """The processor time of that many calls, each."""
    began = process_time()
    for _ in range(count):
        call()
    return (process_time() - began) / count


def least(calls, times):
    """The least time of each call, whose rounds come in turn."""
    counts = {name: max(1, int(LONG / max(1e-6, seconds_of(call, 5)))) for name, call in calls.items()}
    found = dict.fromkeys(calls, float("inf"))
    for _ in range(times):
        for name, call in calls.items():
            found[name] = min(found[name], seconds_of(call, counts[name]))
    return found


def main():
    """Prints the tables."""
    parser = argparse.ArgumentParser(description=__doc__, formatter_class=argparse.RawDescriptionHelpFormatter)
    parser.add_argument("--points", type=int, nargs="*", default=[4, 8, 32, 128])
    parser.add_argument("--times", type=int, default=100, help="rounds, each of a hundredth of a second (100)")
    given = parser.parse_args()
    for name in ("overlay", "intersects"):
        for at, points in enumerate(given.points):
            found = least(calls_of(points)[name], given.times)
            if at == 0:
                print(table_row([f"Points, {name}", *found]), table_row("---" for _ in range(1 + len(found))), sep="\n")
            print(table_row([points, *(f"{1e6 * seconds:.3g}" for seconds in found.values())]), flush=True)
        print()


if __name__ == "__main__":
    sys.exit(main())
