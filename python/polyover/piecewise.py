"""Relations of what many polygons cover, exactly: each polygon is asked with what is near it, until all is told. That
takes less than one call of all polygons, whose edges the library compares with one another too."""

from __future__ import annotations

from typing import Callable, Iterator, Sequence

from .contour import Row
from .nearby import Nearby
from .text import RELATION_BITS

# the bits of the relations of two lists of contours, for the fill rule nonzero
Told = Callable[[Sequence[Row], Sequence[Row]], int]
# whether the relation with a name holds of them
Holds = Callable[[str, Sequence[Row], Sequence[Row]], bool]
Polygons = Sequence[Sequence[Row]]
INTERSECTS, INTERIORS = RELATION_BITS["intersects"], RELATION_BITS["interiors_intersect"]
POINTS, WITHIN = RELATION_BITS["point_intersects"], RELATION_BITS["within"]


def of_one_side(polygons: Polygons, others: Polygons, told: Told) -> tuple[bool, bool, bool, bool]:
    """Whether any polygon meets others, and any does so in its interior; whether all that meet them do so in single
    points alone; and whether all lie in what the others cover."""
    near = Nearby(row for rows in others for row in rows)
    meets, overlaps, in_points, are_within = False, False, True, any(map(any, polygons))
    for rows in polygons:
        if not any(rows):
            continue
        part = near.part_within(rows)
        bits = told(rows, part) if part else 0
        meets, overlaps = meets or bool(bits & INTERSECTS), overlaps or bool(bits & INTERIORS)
        in_points = in_points and bool(not bits & INTERSECTS or bits & POINTS)
        are_within = are_within and bool(bits & WITHIN)
        if overlaps and not are_within:
            break
    return meets, overlaps, meets and in_points and not overlaps, are_within


def relations(subject: Polygons, clip: Polygons, told: Told) -> dict[str, bool]:
    """Which relations hold of what two lists of polygons cover, each by its contours."""
    meets, overlaps, in_points, are_within = of_one_side(subject, clip, told)
    return {
        "intersects": meets,
        "interiors_intersect": overlaps,
        "touches": meets and not overlaps,
        "point_intersects": in_points,
        "within": are_within,
        "disjoint": not meets,
        "covers": overlaps and are_all_within(clip, subject, told),
    }


def are_all_within(polygons: Polygons, others: Polygons, told: Told) -> bool:
    """Whether all polygons lie in what the others cover."""
    near = Nearby(row for rows in others for row in rows)
    return all(told(rows, near.part_within(rows)) & WITHIN for rows in polygons if any(rows))


# ---- one relation, up to the polygon that decides


def asked_one_by_one(name: str, polygons: Polygons, others: Polygons, holds: Holds) -> Iterator[bool]:
    """Whether the relation holds of each polygon and what is near it of the others."""
    near = Nearby(row for rows in others for row in rows)
    for rows in polygons:
        if any(rows):
            part = near.part_within(rows)
            yield bool(part) and holds(name, rows, part)


def has_any(name: str, polygons: Polygons, others: Polygons, holds: Holds) -> bool:
    """Whether any polygon intersects the others, or so do interiors."""
    return any(asked_one_by_one(name, polygons, others, holds))


def lie_within(polygons: Polygons, others: Polygons, holds: Holds) -> bool:
    """Whether there are polygons, and all of them lie in what the others cover."""
    return any(map(any, polygons)) and all(asked_one_by_one("within", polygons, others, holds))


def has_relation(name: str, subject: Polygons, clip: Polygons, holds: Holds, told: Told) -> bool:
    """Whether the relation holds of what two lists of polygons cover, each by its contours."""
    if name in ("intersects", "interiors_intersect"):
        return has_any(name, subject, clip, holds)
    if name == "disjoint":
        return not has_any("intersects", subject, clip, holds)
    if name == "touches":
        return not has_any("interiors_intersect", subject, clip, holds) and has_any("intersects", subject, clip, holds)
    if name == "within":
        return lie_within(subject, clip, holds)
    return lie_within(clip, subject, holds) if name == "covers" else relations(subject, clip, told)[name]
