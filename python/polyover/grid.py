"""The lines of a grid, along which tiles are cut."""

from __future__ import annotations

from typing import Iterable, Sequence

from .errors import BadInput

MOST_LINES = 1000


def misfit(width: int, height: int) -> BadInput:
    """That there is no such grid over a shape."""
    told = f"cells of {width} by {height} do not fit: at least 1 wide and high, at most 1,000 lines in a direction"
    return BadInput(told)


def places(step: int, numbers: Iterable[int]) -> range:
    """The multiples of a step strictly between the least and the greatest of some numbers."""
    known = list(numbers)
    least, greatest = min(known, default=0), max(known, default=0)
    return range((least // step + 1) * step, greatest, step)


def grid_lines(width: int, height: int, xs: Sequence[int], ys: Sequence[int]) -> list[list[tuple[int, int]]]:
    """The lines of the grid across the box of some points: upright ones, and then level ones."""
    if width < 1 or height < 1:
        raise misfit(width, height)
    uprights, levels = places(width, xs), places(height, ys)
    if uprights[MOST_LINES:] or levels[MOST_LINES:]:
        raise misfit(width, height)
    lines = [[(x, min(ys)), (x, max(ys))] for x in uprights]
    return lines + [[(min(xs), y), (max(xs), y)] for y in levels]
