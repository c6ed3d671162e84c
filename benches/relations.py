#!/usr/bin/env python3
"""Compares relations of made polygons of floats on a grid with those of shapely, which are to be the same.

    /usr/bin/python3 benches/relations.py [--count 5000] [--seed 1]     by Debian's shapely and the library in out/

`Scaled` takes each float as it is, and the library tells relations of contours as they are given.
"""

import argparse
import random
import sys
from collections import Counter

from build import ROOT

sys.path.insert(0, str(ROOT / "python"))
# pylint: disable=wrong-import-position
import polyover  # noqa: E402
from tests.made_polygons import GRID, expected, made_pair  # noqa: E402

try:
    from shapely.geometry import Polygon
except ImportError:
    raise SystemExit("no shapely here: /usr/bin/python3 has Debian's python3-shapely") from None


def main():
    """Prints how many relations hold, and each pair of polygons of which one is told otherwise."""
    parser = argparse.ArgumentParser(description=__doc__, formatter_class=argparse.RawDescriptionHelpFormatter)
    parser.add_argument("--count", type=int, default=5000, help="pairs of polygons (5000)")
    parser.add_argument("--seed", type=int, default=1)
    given = parser.parse_args()
    chance, scaled, held, others = random.Random(given.seed), polyover.Scaled(GRID), Counter(), 0
    for _ in range(given.count):
        one, other = made_pair(chance, Polygon)
        told, wanted = scaled.relate(one, other), expected(one, other)
        held.update(name for name, holds in told.items() if holds)
        if told != wanted:
            others += 1
            print(f"{told} of {one.wkt} and {other.wkt}, by shapely {wanted}")
    print(f"{given.count} pairs, {others} otherwise: {', '.join(f'{name} {held[name]}' for name in wanted)}")
    return min(others, 1)


if __name__ == "__main__":
    sys.exit(main())
