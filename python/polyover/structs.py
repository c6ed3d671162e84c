"""The structs of the library for C (include/polyover.h), and the kinds of their numbers."""

from __future__ import annotations

from array import array
from ctypes import Structure, c_size_t, c_uint32, c_uint64, c_void_p, sizeof
from struct import Struct
from typing import Any

from .flat import address_of

COORDINATES, SIZES, BYTES = "q", "Q" if sizeof(c_size_t) == 8 else "I", "B"
ITEM_SIZES = {kind: array(kind).itemsize for kind in (COORDINATES, SIZES, BYTES)}
# (a source: the number of a given edge, and two bytes)
SOURCE = Struct("@NBB0N")


# ---- how answers look


class Options(Structure):
    """How the answer of an overlay looks."""

    _fields_ = [
        ("direction", c_uint32),
        ("keep", c_uint32),
        ("touching", c_uint32),
        ("solver", c_uint32),
        ("min_area_high", c_uint64),
        ("min_area_low", c_uint64),
    ]


class SliceOptions(Structure):
    """How slices look."""

    _fields_ = [
        ("direction", c_uint32),
        ("solver", c_uint32),
        ("min_area_high", c_uint64),
        ("min_area_low", c_uint64),
    ]


class ClipOptions(Structure):
    """Which parts of lines a clip keeps."""

    _fields_ = [("invert", c_uint32), ("boundary", c_uint32), ("solver", c_uint32)]


# ---- what is given


class Given(Structure):
    """Coordinates, and what goes with them, in two arrays."""

    def __init__(self, numbers: Any, others: Any) -> None:
        # (the fields hold no more than addresses: the arrays have to stay as long)
        coordinates, kept = address_of(numbers)
        places, also_kept = address_of(others)
        self.kept = kept, also_kept
        super().__init__(coordinates, len(numbers), places, len(others))


class Contours(Given):
    """Contours, or open paths."""

    _fields_ = [
        ("coordinates", c_void_p),
        ("coordinate_count", c_size_t),
        ("ends", c_void_p),
        ("end_count", c_size_t),
    ]

    def __init__(self, numbers: Any, ends: Any) -> None:
        self.numbers, self.ends_of_each = numbers, ends
        super().__init__(numbers, ends)
        # (a copy stays as it is where the arrays change)
        self.is_copied = self.kept[0] is not numbers or self.kept[1] is not ends


class EdgeList(Given):
    """Edges, each of the subject or of the clip."""

    _fields_ = [
        ("coordinates", c_void_p),
        ("coordinate_count", c_size_t),
        ("sides", c_void_p),
        ("side_count", c_size_t),
    ]


# ---- what is answered


class Result(Structure):
    """An answer in memory of the library: arrays, and how many numbers, or links, each has."""

    _fields_ = [
        ("coordinates", c_void_p),
        ("coordinate_count", c_size_t),
        ("contour_ends", c_void_p),
        ("contour_count", c_size_t),
        ("shape_ends", c_void_p),
        ("shape_count", c_size_t),
        ("links", c_void_p),
        ("link_count", c_size_t),
        ("fills", c_void_p),
        ("fill_count", c_size_t),
    ]


class PreparedShape(Structure):
    """A prepared shape in memory of the library."""

    _fields_ = [
        ("edges", c_void_p),
        ("edge_count", c_size_t),
        ("blocks", c_void_p),
        ("block_count", c_size_t),
        ("groups", c_void_p),
        ("group_count", c_size_t),
    ]


class ExactShape(PreparedShape):
    """A shape as it is given, in memory of the library."""

    _fields_ = [("fill", c_uint32)]


class Graph(Structure):
    """A graph in memory of the library."""

    _fields_ = [
        ("edges", c_void_p),
        ("edge_count", c_size_t),
        ("fill", c_uint32),
        ("solver", c_uint32),
        ("keep_given", c_uint32),
    ]


class Traced(Structure):
    """Traced edges in memory of the library."""

    _fields_ = [
        ("coordinates", c_void_p),
        ("coordinate_count", c_size_t),
        ("fills", c_void_p),
        ("fill_count", c_size_t),
        ("source_ends", c_void_p),
        ("source_end_count", c_size_t),
        ("sources", c_void_p),
        ("source_count", c_size_t),
    ]
