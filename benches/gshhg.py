"""The world's shorelines and rivers as GMT keeps them (Debian's `gmt-gshhg-low` and `gmt-gshhg-high`), read by Debian's
`libnetcdf19`: cut by a grid of bins, in each of which coordinates are parts of its side.

A part of a shoreline that enters its bin and leaves it again ends where the next part of its polygon begins.
"""

import ctypes
from collections import defaultdict
from pathlib import Path

DATA = Path("/usr/share/gmt-gshhg")
LIBRARY = "libnetcdf.so.19"
PARTS = 65535
LAND = 1
# (of a degree: by how much equal points of two bins may differ)
PLACES = 10**5


class File:
    """A file of NetCDF: its variables as lists of whole numbers."""

    def __init__(self, path):
        self.calls, self.number = ctypes.CDLL(LIBRARY), ctypes.c_int()
        self.ask("nc_open", str(path).encode(), 0, ctypes.byref(self.number), is_open=False)

    def ask(self, name, *given, is_open=True):
        """A call of the library, which has to end well."""
        status = getattr(self.calls, name)(*([self.number] if is_open else []), *given)
        if status != 0:
            raise SystemExit(f"{name} of {given[0]}: status {status}")

    def numbers(self, name):
        """The numbers of a variable of one dimension, or of none."""
        at, count, place, length = ctypes.c_int(), ctypes.c_int(), ctypes.c_int(), ctypes.c_size_t(1)
        self.ask("nc_inq_varid", name.encode(), ctypes.byref(at))
        self.ask("nc_inq_varndims", at, ctypes.byref(count))
        if count.value:
            self.ask("nc_inq_vardimid", at, ctypes.byref(place))
            self.ask("nc_inq_dimlen", place, ctypes.byref(length))
        found = (ctypes.c_int * length.value)()
        self.ask("nc_get_var_int", at, found)
        return list(found)


class Binned:
    """A file of parts in bins."""

    def __init__(self, path):
        self.file = File(path)
        (minutes,) = self.file.numbers("Bin_size_in_minutes")
        (self.across,) = self.file.numbers("N_bins_in_360_longitude_range")
        self.side = minutes / 60
        self.firsts = self.file.numbers("Id_of_first_point_in_a_segment")
        self.xs = self.file.numbers("Relative_longitude_from_SW_corner_of_bin")
        self.ys = self.file.numbers("Relative_latitude_from_SW_corner_of_bin")
        self.bins = [0] * len(self.firsts)
        starts = self.file.numbers("Id_of_first_segment_in_a_bin")
        for number, (start, count) in enumerate(zip(starts, self.file.numbers("N_segments_in_a_bin"))):
            self.bins[start : start + count] = [number] * count

    def points(self, part, count):
        """The points of a part in degrees, to the east from 0 to 360."""
        row, column = divmod(self.bins[part], self.across)
        left, low, first = column * self.side, 90 - (row + 1) * self.side, self.firsts[part]
        xs, ys = ([each & 0xFFFF for each in numbers[first : first + count]] for numbers in (self.xs, self.ys))
        return [
            (round(left + x * self.side / PARTS, 7), round(low + y * self.side / PARTS, 7)) for x, y in zip(xs, ys)
        ]


def rivers_in(path):
    """The rivers of a file: of each its level, and its points from -180 to 180 degrees."""
    binned = Binned(path)
    counts = binned.file.numbers("N_points_for_a_segment")
    levels = binned.file.numbers("Hierarchial_level_of_a_segment")
    found = []
    for part, (count, level) in enumerate(zip(counts, levels)):
        points = binned.points(part, count)
        # (bins end at 180 degrees, so no river runs across)
        move = 360 if min(x for x, _ in points) >= 180 else 0
        found.append((level, [(round(x - move, 7), y) for x, y in points]))
    return found


def rings_in(path, level=LAND):
    """The rings of the polygons of a level, without a jump from 360 to 0 degrees; so some run beyond."""
    binned = Binned(path)
    told = binned.file.numbers("Embedded_npts_levels_exit_entry_for_a_segment")
    parts = defaultdict(list)
    for part, (word, number) in enumerate(zip(told, binned.file.numbers("Id_of_GSHHS_ID"))):
        if word >> 6 & 7 == level:
            parts[number].append(binned.points(part, word >> 9))
    return [ring for each in parts.values() for ring in joined(each)]


def joined(parts):
    """Rings of parts: one that is not closed goes on in that which begins where it ends."""
    rings = [part for part in parts if place_of(part[0]) == place_of(part[-1])]
    left = {place_of(part[0]): part for part in parts if place_of(part[0]) != place_of(part[-1])}
    while left:
        ring = left.pop(next(iter(left)))
        while (part := left.pop(place_of(ring[-1]), None)) is not None:
            ring = ring + part[1:]
        rings.append(ring)
    return [without_jump(ring) for ring in rings]


def place_of(point):
    """A point as it is compared: 0 and 360 degrees are one."""
    x, y = point
    return round(x * PLACES) % (360 * PLACES), round(y * PLACES)


def without_jump(ring):
    """A ring in which each point is less than half a turn from the one before."""
    found, turns = [ring[0]], 0
    for (before, _), (x, y) in zip(ring, ring[1:]):
        turns += (before - x > 180) - (x - before > 180)
        found.append((x + 360 * turns, y))
    return [*found[:-1], found[0]] if found[-1][0] == found[0][0] else found
