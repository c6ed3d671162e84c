"""Boolean operations on polygons with whole coordinates, by the library for C, or by the program: `built` tells whether
the library is made of the proved module."""

from .arrangement import Arrangement
from .calls import backend, built, clip, edges, hierarchy, is_resolved, locate, overlay, simplify, tiles
from .calls import slice  # pylint: disable=redefined-builtin
from .errors import BadInput, LibraryMissing, NotResolved, NotSettled, OutOfMemory, PolyoverError, ProgramMissing
from .errors import PolyoverWarning, TooManyEdges
from .flat import Flat, FlatFloats, FlatShapes
from .prepared import Prepared
from .reading import contours_of, lines_of
from .relations import relate
from .rules import covers, difference, disjoint, interiors_intersect, intersection, intersects, point_intersects
from .rules import symmetric_difference, touches, union, union_all, within
from .scaled import Scaled
from .shapes import Paths, Shapes
from .text import LOCATIONS, Fill, RelationSolver, Rule, Solver
from .traced import Source, TracedEdge, trace
from .vectors import VectorEdge, vectors

__version__ = "0.2.0"

__all__ = [
    "Arrangement",
    "BadInput",
    "Fill",
    "Flat",
    "FlatFloats",
    "FlatShapes",
    "LOCATIONS",
    "LibraryMissing",
    "NotResolved",
    "NotSettled",
    "OutOfMemory",
    "Paths",
    "PolyoverError",
    "PolyoverWarning",
    "Prepared",
    "ProgramMissing",
    "RelationSolver",
    "Rule",
    "Scaled",
    "Shapes",
    "Solver",
    "Source",
    "TooManyEdges",
    "TracedEdge",
    "VectorEdge",
    "backend",
    "built",
    "clip",
    "contours_of",
    "covers",
    "difference",
    "disjoint",
    "edges",
    "hierarchy",
    "interiors_intersect",
    "intersection",
    "intersects",
    "is_resolved",
    "lines_of",
    "locate",
    "overlay",
    "point_intersects",
    "relate",
    "simplify",
    "symmetric_difference",
    "tiles",
    "touches",
    "trace",
    "union",
    "union_all",
    "vectors",
    "within",
]
