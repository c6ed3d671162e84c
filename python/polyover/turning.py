"""Rings of many polygons in their directions, by columns of NumPy's: as `contour.directed_rings` has each."""

from __future__ import annotations

import sys
from typing import Any, Sequence

from .contour import double_area
from .flat import Flat

# (how far from 0 coordinates are at most, for differences of them to be whole numbers of 64 bits)
FAR = 2**40
# (below it a sum of products is told by 64 bits)
SURE = 2.0**62
# (odd numbers, by whose products different points seldom have one key)
ACROSS, UP, ROUND = 0x9E3779B97F4A7C15, 0xC2B2AE3D27D4EB4F, 0x165667B19E3779F9


def directed_all(whole: Any, counts: Sequence[int], sizes: Sequence[int]) -> tuple[Flat, list[bool]] | None:
    """The rings of polygons, whose whole coordinates stand in a row of NumPy's, in their directions, and which polygons
    they are of: not of those with a ring that may visit a point twice, or has no area. `counts` are those of the points
    of each ring, and `sizes` those of the rings of each polygon. None where coordinates are large."""
    numpy: Any = sys.modules["numpy"]
    points, lengths = whole.reshape(-1, 2), numpy.array(counts, numpy.int64)
    if points.max() > FAR or points.min() < -FAR:
        return None
    ends = lengths.cumsum()
    starts, outlines = ends - lengths, numpy.array([0, *sizes[:-1]], numpy.int64).cumsum()
    ring = numpy.repeat(numpy.arange(len(counts)), lengths)
    areas = doubled_areas(numpy, points, starts, ends, ring)
    is_good = areas != 0
    is_good[visiting_twice(numpy, points, ring)] = False
    is_kept = numpy.logical_and.reduceat(is_good, outlines)
    is_outline = numpy.zeros(len(counts), bool)
    is_outline[outlines] = True
    turned = (areas > 0) != is_outline
    places = numpy.arange(len(points))
    places = numpy.where(turned[ring], (starts + ends - 1)[ring] - places, places)
    kept = numpy.repeat(is_kept, sizes)
    numbers, kept_ends = points[places[kept[ring]]].reshape(-1), lengths[kept].cumsum()
    return Flat.answered(memoryview(numbers), memoryview(kept_ends)), is_kept.tolist()


def visiting_twice(numpy: Any, points: Any, ring: Any) -> Any:
    """The rings that may visit a point twice: by keys, which may be equal of points that are not."""
    across, up, of_ring = (numpy.uint64(each) for each in (ACROSS, UP, ROUND))
    keys = points[:, 0].astype(numpy.uint64) * across + points[:, 1].astype(numpy.uint64) * up
    keys += ring.astype(numpy.uint64) * of_ring
    order = keys.argsort()
    keys = keys[order]
    return ring[order[1:][keys[1:] == keys[:-1]]]


def doubled_areas(numpy: Any, points: Any, starts: Any, ends: Any, ring: Any) -> Any:
    """Of each ring a number with the sign of its area."""
    moved = points - points[starts][ring]
    behind = numpy.arange(1, len(points) + 1)
    behind[ends - 1] = starts
    xs, ys = moved[:, 0], moved[:, 1]
    areas = numpy.add.reduceat(xs * ys[behind] - xs[behind] * ys, starts)
    reach = numpy.maximum.reduceat(numpy.abs(moved).max(axis=1), starts).astype(numpy.float64)
    for at in numpy.nonzero(2 * (ends - starts) * reach * reach >= SURE)[0].tolist():
        # (by Python's own numbers it is exact)
        exact = double_area(points[starts[at] : ends[at]].tolist())
        areas[at] = (exact > 0) - (exact < 0)
    return areas
