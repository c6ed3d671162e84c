"""Small overlays and relations of floats by one call of the library, in an array that is kept for the next one: what
the library is given, and what it answers, stand in it.

Taken are polygons of one ring, of shapely or GeoJSON, and plain lists of contours. Where anything is otherwise, or the
call does not end well, there is no answer here: then it is asked as all others are, which names places."""

from __future__ import annotations

import sys
from array import array
from functools import lru_cache
from itertools import chain
from struct import Struct
from struct import error as StructError
from typing import Any, Sequence

from .columns import Columns, whole_row
from .flat import parted
from .library import Library
from .plain import LISTS, NUMBERS
from .quick import ring_of, rings_into
from .shapes import Paths, Shapes

WORD = 8
# (how many numbers there is room for, given and answered, and how many contours)
GIVEN, ANSWERED, CONTOURS = 2048, 8192, 256
# where the parts of the array begin: subject, clip and both as the library takes them, how much is answered, ends
CLIP, BOTH, COUNTS, ENDS = 4, 8, 12, 16
COORDINATES = ENDS + CONTOURS
ANSWER = COORDINATES + GIVEN
CONTOUR_ENDS = ANSWER + ANSWERED
SHAPE_ENDS = CONTOUR_ENDS + CONTOURS
WORDS = SHAPE_ENDS + CONTOURS
HEAD = Struct("12q")
RULES = {"subject": 0, "clip": 1, "intersect": 2, "union": 3, "difference": 4, "inverse_difference": 5, "xor": 6}
# (a ring fills the same by these, whichever way it runs)
FILLS = {"evenodd": 0, "nonzero": 1}
NONZERO = FILLS["nonzero"]
# (how far from 0 coordinates of 32 bits are at most)
NARROW = 2**30 - 1


@lru_cache(maxsize=256)
def words_of(count: int, kind: str) -> Struct:
    """That many whole numbers of a kind."""
    return Struct(f"{count}{kind}")


class Width:
    """The calls of a library at 64 bits, or at 32, and the coordinates that they take and give."""

    def __init__(self, asked: Library, words: memoryview, kind: str) -> None:
        self.kind, self.size = kind, words.cast("B").cast(kind).itemsize
        calls = asked.framed("" if kind == "q" else "_32")
        self.resolved, self.overlay, self.relate, self.relate_one = calls
        self.numbers, self.start = words.cast("B").cast(kind), WORD * COORDINATES // self.size
        self.answer = WORD * ANSWER // self.size


# a group: how many numbers stand up to its end, and how many points up to the end of each of its contours; whether it
# is a geometry; and its coordinates, where they do not stand in the array of floats yet
Given = tuple[int, "list[int]", bool, "Sequence[float] | None"]


def listed(group: Any, at: int) -> Given | None:
    """A list of contours, if it is plain, whose coordinates are to begin at a place."""
    row: list[float] = []
    ends = []
    for path in group:
        if type(path) not in LISTS or not set(map(type, path)) <= LISTS or set(map(len, path)) != {2}:
            return None
        row += chain.from_iterable(path)
        ends.append(len(row) // 2)
    return (at + len(row), ends, False, row) if set(map(type, row)) <= NUMBERS else None


class Frame:
    """The arrays, and the calls of a library that they are passed to."""

    def __init__(self, asked: Library) -> None:
        self.words, self.floats = array("q", bytes(WORD * WORDS)), array("d", bytes(WORD * GIVEN))
        self.base, self.floats_at = self.words.buffer_info()[0], self.floats.buffer_info()[0]
        self.wide, self.narrow = (Width(asked, memoryview(self.words), kind) for kind in "qi")
        self.columns: Columns | None = None
        # (the groups that the first words tell of)
        self.written: tuple[int, ...] = ()
        rooms = (ANSWER, ANSWERED), (CONTOUR_ENDS, CONTOURS), (SHAPE_ENDS, CONTOURS)
        answer = [number for place, room in rooms for number in (self.at(place), room)]
        self.clip, self.both, self.counts = map(self.at, (CLIP, BOTH, COUNTS))
        # (without options the default ones are taken)
        self.passed = (None, self.base, self.clip, *answer, self.counts)

    def at(self, word: int) -> int:
        """The address of a word."""
        return self.base + WORD * word

    # ---- what is given

    def group(self, group: Any, at: int) -> Given | None:
        """A group as it is taken here, if it is."""
        if type(group) in LISTS:
            return listed(group, at)
        ring = ring_of(group)
        return None if ring is None else (at + len(ring), [len(ring) // 2], True, ring)

    def whole(self, axes: Sequence[Any], one: Given, other: Given) -> Width:
        """Writes the whole coordinates of two groups; at which width they stand."""
        floats, start, end = self.floats, one[0], other[0]
        if axes[0] is axes[1] and "numpy" in sys.modules:
            if one[3]:
                floats[:start] = array("d", one[3])
            if other[3]:
                floats[start:end] = array("d", other[3])
            if self.columns is None:
                self.columns = Columns(floats, self.words, COORDINATES)
            size = self.columns.write(axes[0], end)
            if size:
                return self.narrow if size == 4 else self.wide
        first = floats[:start] if one[3] is None else one[3]
        second = floats[start:end] if other[3] is None else other[3]
        row = whole_row(axes, [*first, *second])
        width = self.narrow if not row or -NARROW <= min(row) <= max(row) <= NARROW else self.wide
        words_of(len(row), width.kind).pack_into(self.words, WORD * COORDINATES, *row)
        return width

    def write_head(self, width: Width, one: Given, other: Given) -> None:
        """Writes what the library is told of two groups: where they are, and their ends."""
        size, start, end, first, second = width.size, one[0], other[0], len(one[1]), len(other[1])
        written = (size, start, end) if first == second == 1 else ()
        if written and written == self.written:
            return
        coordinates, ends = self.at(COORDINATES), self.at(ENDS)
        clip_at, both_at = ends + WORD * first, ends + WORD * (first + second)
        groups = start, ends, first, coordinates + size * start, end - start, clip_at, second
        HEAD.pack_into(self.words, 0, coordinates, *groups, coordinates, end, both_at, 2)
        marks = [*one[1], *other[1], start // 2, end // 2]
        words_of(len(marks), "q").pack_into(self.words, WORD * ENDS, *marks)
        self.written = written

    def visits_once(self, width: Width, start: int, end: int) -> bool:
        """Whether no point comes twice in a ring."""
        if width.size == 4:
            # (a point is a word)
            points = self.words[COORDINATES + start // 2 : COORDINATES + end // 2]
            return len(set(points)) == len(points)
        numbers = iter(self.words[COORDINATES + start : COORDINATES + end])
        return 2 * len(set(zip(numbers, numbers))) == end - start

    def taken(self, axes: Sequence[Any], one: Given, other: Given) -> Width | None:
        """Writes two groups, if the rings of geometries are simple; at which width."""
        width = self.whole(axes, one, other)
        self.write_head(width, one, other)
        if one[2] and not self.visits_once(width, 0, one[0]):
            return None
        if other[2] and not self.visits_once(width, one[0], other[0]):
            return None
        if one[2]:
            return None if width.resolved(self.both if other[2] else self.base) else width
        return None if other[2] and width.resolved(self.clip) else width

    def take(self, axes: Sequence[Any], subject: Any, clip: Any) -> Width | None:
        """The same of what is given, if it is small and plain."""
        first, second = rings_into(subject, clip, self.floats_at, GIVEN // 2)
        if first:
            start, end = 2 * first, 2 * (first + second)
            return self.taken(axes, (start, [first], True, None), (end, [second], True, None))
        one = self.group(subject, 0)
        if one is None or one[0] > GIVEN:
            return None
        other = self.group(clip, one[0])
        if other is None or other[0] > GIVEN or len(one[1]) + len(other[1]) + 2 > CONTOURS:
            return None
        return self.taken(axes, one, other)

    # ---- what is answered

    def shapes(self, axes: Sequence[Any], subject: Any, clip: Any, rule: int, fill: int) -> Shapes | None:
        """The shapes of an overlay, if the groups are taken and the call ends well."""
        width = self.take(axes, subject, clip)
        if width is None or width.overlay(rule, fill, *self.passed):
            return None
        words = self.words
        numbers, contours, shapes = words[COUNTS : COUNTS + 3]
        points = points_of(width.numbers[width.answer : width.answer + numbers].tolist(), axes)
        if contours == 1:
            return Shapes([Paths([points])])
        parts = parted(points, words[CONTOUR_ENDS : CONTOUR_ENDS + contours].tolist())
        return Shapes(map(Paths, parted(parts, words[SHAPE_ENDS : SHAPE_ENDS + shapes].tolist())))

    def relations(self, axes: Sequence[Any], subject: Any, clip: Any, fill: int, asked: int) -> int | None:
        """The bits of the relations that hold, or with a relation's bit whether that holds, if the groups are taken and
        the call ends well."""
        words, width = self.words, self.take_rings(axes, subject, clip)
        if width:
            # (it fills what rings cover, those too that visit a point twice)
            fill = NONZERO
        else:
            width = self.take(axes, subject, clip)
        if not width:
            return None
        words[COUNTS] = 0
        given = fill, self.base, self.clip, self.counts
        if width.relate_one(asked, *given) if asked else width.relate(*given):
            return None
        return words[COUNTS]

    def take_rings(self, axes: Sequence[Any], subject: Any, clip: Any) -> Width | None:
        """Writes two rings of shapely's, if no steps of one meet but in ends, and floats tell their whole numbers; at
        which width. (This is `take`, straight on.)"""
        columns, axis = self.columns, axes[0]
        if columns is None or axis is not axes[1]:
            return None
        first, second = rings_into(subject, clip, self.floats_at, GIVEN // 2)
        start, end = 2 * first, 2 * (first + second)
        size = first and columns.write(axis, end)
        if not size:
            return None
        width = self.narrow if size == 4 else self.wide
        if self.written != (size, start, end):
            self.write_head(width, (start, [first], True, None), (end, [second], True, None))
        # (of rings whose steps do not meet so, but which have no inside, all points are one)
        if size == 4:
            words, behind = self.words, COORDINATES + first
            if words[COORDINATES] == words[COORDINATES + 1] or words[behind] == words[behind + 1]:
                return None
        elif not (self.visits_once(width, 0, start) and self.visits_once(width, start, end)):
            return None
        return None if width.resolved(self.both) else width


def points_of(whole: Sequence[int], axes: Sequence[Any]) -> list[tuple[float, float]]:
    """The points of floats at whole coordinates in a row."""
    across, up = axes
    if across is up:
        numbers = iter(across.numbers(whole))
        return list(zip(numbers, numbers))
    return list(zip(across.numbers(whole[0::2]), up.numbers(whole[1::2])))


# ---- the calls

# (there is no such rule, or what is given is no number, out of range, or no list)
UNFIT = (KeyError, TypeError, ValueError, OverflowError, StructError)


def overlay(asked: Library | None, axes: Sequence[Any], subject: Any, clip: Any, rule: Any, fill: Any) -> Any:
    """The shapes of the overlay of two groups, if there is a library and they are small and plain."""
    if asked is None or not asked.has_frames:
        return None
    frame = asked.frames.pop() if asked.frames else Frame(asked)
    try:
        return frame.shapes(axes, subject, clip, RULES[rule], FILLS[fill])
    except UNFIT:
        return None
    finally:
        asked.frames.append(frame)


def relations(
    asked: Library | None, axes: Sequence[Any], subject: Any, clip: Any, fill: Any, relation: int = 0
) -> Any:
    """The bits of the relations that hold of two groups as they are given, likewise; with a relation's bit 1 or 0."""
    if asked is None or not asked.has_frames:
        return None
    frame = asked.frames.pop() if asked.frames else Frame(asked)
    try:
        return frame.relations(axes, subject, clip, FILLS[fill], relation)
    except UNFIT:
        return None
    finally:
        asked.frames.append(frame)
