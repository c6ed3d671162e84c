"""Each call as the library for C answers it."""

from __future__ import annotations

from array import array
from ctypes import c_size_t, c_uint32
from functools import lru_cache
from struct import iter_unpack
from typing import Any, Callable

from .errors import LibraryMissing, NotResolved
from .flat import Flat, FlatShapes, address_of, parted
from .grid import grid_lines
from .held import HeldExactly, HeldGraph, HeldShape, HeldTrace
from .library import Held, Library
from .library import library as found_library
from .statuses import Status, check
from .structs import BYTES, COORDINATES, ClipOptions, Contours, EdgeList, Options, SliceOptions
from .text import FILLS, RELATION_BITS, RULES, SOLVERS

NAME, BUILT = "library", "polyover_built"
RULE_NUMBERS = {name: number for number, name in enumerate(RULES)}
FILL_NUMBERS = {name: number for number, name in enumerate(FILLS)}
SOLVER_NUMBERS: dict[str, int] = {name: number for number, name in enumerate(SOLVERS)}
Found = Callable[[Held], Any]
RESULTS = ("overlay", "hierarchy", "simplify", "edges", "clip", "slice", "vectors")
# the function of the library that each call takes
TAKES = {
    **{name: f"polyover_{name}_result" for name in RESULTS},
    **{name: f"polyover_{name}" for name in ("relate", "relate_one", "relate_exact", "relate_one_exact")},
    **{name: f"polyover_{name}" for name in ("locate", "arrange", "prepare", "prepare_exact")},
    "tiles": "polyover_slice_result",
    "slice_custom": "polyover_slice_custom_result",
    "is_resolved": "polyover_resolved",
    "trace": "polyover_trace",
}
# (the number that stands for all edges in the place of a rule)
ALL_EDGES = 7


def can(call: str) -> bool:
    """Whether there is a library, and it has the function that the call takes."""
    found = found_library()
    return found is not None and TAKES.get(call) in found.names


@lru_cache(maxsize=256)
def options(look: Any) -> Options:
    """The options of an overlay, which are only read."""
    high, low = divmod(look.minimum_area, 2**64)
    return Options(look.clockwise, look.keep, not look.ogc, SOLVER_NUMBERS[look.solver], high, low)


def library() -> Library:
    """The library, which must be there."""
    found = found_library()
    if found is None:
        raise LibraryMissing("no library")
    return found


def built() -> str:
    """What the library says that it is made of."""
    asked = library()
    if BUILT not in asked.names:
        return "unknown"
    return "proved" if asked.call(BUILT) == 1 else "unproved"


# ---- answers in arrays


def points_in(numbers: Any) -> list[Any]:
    """The points of an array of coordinates."""
    return list(iter_unpack("2q", numbers))


def paths_in(held: Held) -> list[Any]:
    """The contours, or the paths, of an answer."""
    return parted(points_in(held.coordinates), held.contour_ends.tolist())


def shapes_in(held: Held) -> list[Any]:
    """The shapes of an answer."""
    return parted(paths_in(held), held.shape_ends.tolist())


def linked_in(held: Held) -> tuple[list[Any], list[Any]]:
    """The shapes of an answer, and its links."""
    told = held.links.tolist()
    return shapes_in(held), list(zip(told[0::3], told[1::3], told[2::3]))


def filled_in(held: Held) -> list[Any]:
    """The shapes of an answer, whose points have each the bits of the filled sides of the step that begins there."""
    points = list(zip(points_in(held.coordinates), held.fills.tolist()))
    return parted(parted(points, held.contour_ends.tolist()), held.shape_ends.tolist())


def edges_in(held: Held) -> list[Any]:
    """The edges of an answer: two points each, and the bits of its filled sides."""
    points = points_in(held.coordinates)
    return list(zip(points[0::2], points[1::2], held.fills.tolist()))


def flat_paths(held: Held) -> Flat:
    """The contours, or the paths, of an answer, where they are."""
    return Flat.answered(held.coordinates, held.contour_ends)


def flat_shapes(held: Held) -> FlatShapes:
    """The shapes of an answer, where they are."""
    return FlatShapes.answered(flat_paths(held), held.shape_ends)


# ---- the calls


def overlay(subject: Any, clip: Any, rule: str, fill: str, look: Any, found: Found = shapes_in) -> Any:
    """The shapes of an overlay."""
    asked = library()
    both = asked.contours(subject), asked.contours(clip)
    return found(asked.answer("polyover_overlay_result", RULE_NUMBERS[rule], FILL_NUMBERS[fill], options(look), *both))


def hierarchy(subject: Any, clip: Any, rule: str, fill: str, look: Any) -> tuple[list[Any], list[Any]]:
    """The shapes of an overlay, and its links."""
    asked = library()
    both = asked.contours(subject), asked.contours(clip)
    numbers = RULE_NUMBERS[rule], FILL_NUMBERS[fill], options(look)
    return linked_in(asked.answer("polyover_hierarchy_result", *numbers, *both))


def vectors(subject: Any, clip: Any, rule: str, fill: str, look: Any) -> list[Any]:
    """The shapes of an overlay, with the filled sides of each step."""
    asked = library()
    both = asked.contours(subject), asked.contours(clip)
    numbers = RULE_NUMBERS[rule], FILL_NUMBERS[fill], options(look)
    return filled_in(asked.answer("polyover_vectors_result", *numbers, *both))


def simplify(subject: Any, fill: str, look: Any, found: Found = shapes_in) -> Any:
    """The shapes that contours are simplified to."""
    asked = library()
    contours = asked.contours(subject)
    return found(asked.answer("polyover_simplify_result", FILL_NUMBERS[fill], options(look), contours))


def edges(subject: Any, clip: Any, fill: str, solver: str) -> list[Any]:
    """The edges of the arrangement."""
    asked = library()
    both = asked.contours(subject), asked.contours(clip)
    return edges_in(asked.answer("polyover_edges_result", FILL_NUMBERS[fill], SOLVER_NUMBERS[solver], *both))


def truths_of(bits: int) -> dict[str, bool]:
    """The truth of each relation, which has a bit."""
    return {name: bool(bits & bit) for name, bit in RELATION_BITS.items()}


def relate(subject: Any, clip: Any, fill: str, solver: str) -> dict[str, bool]:
    """The truth of each relation."""
    asked, relations = library(), c_uint32()
    both = asked.contours(subject), asked.contours(clip)
    check(asked.call("polyover_relate", FILL_NUMBERS[fill], SOLVER_NUMBERS[solver], *both, relations))
    return truths_of(relations.value)


def relate_exact(subject: Any, clip: Any, fill: str) -> dict[str, bool]:
    """The truth of each relation of the contours as they are given."""
    return truths_of(exact_bits(subject, clip, fill))


def exact_bits(subject: Any, clip: Any, fill: str) -> int:
    """The sum of the bits of these relations."""
    asked, relations = library(), c_uint32()
    both = asked.contours(subject), asked.contours(clip)
    check(asked.call("polyover_relate_exact", FILL_NUMBERS[fill], *both, relations))
    return relations.value


def relate_one_exact(relation: str, subject: Any, clip: Any, fill: str) -> bool:
    """Whether the relation with the name holds of the contours as they are given. (An older library tells all.)"""
    if not can("relate_one_exact"):
        return relate_exact(subject, clip, fill)[relation]
    asked, holds = library(), c_uint32()
    both = asked.contours(subject), asked.contours(clip)
    check(asked.call("polyover_relate_one_exact", RELATION_BITS[relation], FILL_NUMBERS[fill], *both, holds))
    return holds.value == 1


def relate_one(relation: str, subject: Any, clip: Any, fill: str, solver: str) -> bool:
    """Whether the relation with the name holds."""
    asked, holds = library(), c_uint32()
    both = asked.contours(subject), asked.contours(clip)
    numbers = RELATION_BITS[relation], FILL_NUMBERS[fill], SOLVER_NUMBERS[solver]
    check(asked.call("polyover_relate_one", *numbers, *both, holds))
    return holds.value == 1


def clip(
    shape: Any, lines: Any, fill: str, invert: bool, boundary: bool, solver: str, found: Found = paths_in
) -> Any:
    """The parts of open paths that are kept."""
    asked = library()
    both = asked.contours(shape), asked.contours(lines)
    kept = ClipOptions(bool(invert), bool(boundary), SOLVER_NUMBERS[solver])
    return found(asked.answer("polyover_clip_result", FILL_NUMBERS[fill], kept, *both))


def sliced(asked: Library, contours: Any, lines: Any, fill: str, solver: str, found: Found) -> Any:
    """The shapes into which open paths cut contours."""
    paths = asked.contours(lines)
    numbers = FILL_NUMBERS[fill], SOLVER_NUMBERS[solver]
    return found(asked.answer("polyover_slice_result", *numbers, contours, paths))


def slice(  # pylint: disable=redefined-builtin
    shape: Any, lines: Any, fill: str, solver: str, found: Found = shapes_in
) -> Any:
    """The shapes into which open paths cut a shape."""
    asked = library()
    return sliced(asked, asked.contours(shape), lines, fill, solver, found)


def slice_custom(
    shape: Any, lines: Any, fill: str, clockwise: bool, minimum_area: int, solver: str, found: Found = shapes_in
) -> Any:
    """The same in a direction, without contours of a smaller area."""
    asked = library()
    both = asked.contours(shape), asked.contours(lines)
    look = SliceOptions(clockwise, SOLVER_NUMBERS[solver], *divmod(minimum_area, 2**64))
    return found(asked.answer("polyover_slice_custom_result", FILL_NUMBERS[fill], look, *both))


def tiles(shape: Any, width: int, height: int, fill: str, solver: str, found: Found = shapes_in) -> Any:
    """The shapes into which the cells of a grid cut a shape: it is sliced along the lines of the grid."""
    asked = library()
    contours = asked.contours(shape)
    asked.check_range(contours)
    numbers = contours.numbers
    xs, ys = zip(*points_in(numbers)) if numbers else ((), ())
    return sliced(asked, contours, grid_lines(width, height, xs, ys), fill, solver, found)


def is_resolved(shape: Any) -> bool:
    """Whether each contour is resolved."""
    asked = library()
    status = asked.call("polyover_resolved", asked.contours(shape))
    if status != Status.NOT_RESOLVED:
        check(status)
    return status == Status.OK


def locate(shape: Any, points: Any) -> bytearray:
    """Where each point lies: the place of its word in `LOCATIONS`."""
    asked, unresolved = library(), c_size_t()
    contours, queries = asked.contours(shape), asked.contours([points])
    found = bytearray(queries.coordinate_count // 2)
    room, _ = address_of(found)
    given = queries.coordinates, queries.coordinate_count
    status = asked.call("polyover_locate", contours, *given, room, len(found), unresolved)
    if status == Status.NOT_RESOLVED:
        raise NotResolved(unresolved.value + 1)
    check(status)
    return found


def prepare(shape: Any, fill: str, solver: str) -> HeldShape:
    """A prepared shape."""
    asked = library()
    return HeldShape(asked, FILL_NUMBERS[fill], SOLVER_NUMBERS[solver], asked.contours(shape))


def prepare_exact(shape: Any, fill: str) -> HeldShape:
    """A shape as it is given."""
    asked = library()
    return HeldExactly(asked, FILL_NUMBERS[fill], asked.contours(shape))


# ---- an arrangement, and what is asked of it


def arrange(subject: Any, clip: Any, fill: str, solver: str) -> HeldGraph:
    """The arrangement of both."""
    asked = library()
    both = asked.contours(subject), asked.contours(clip)
    return HeldGraph(asked, FILL_NUMBERS[fill], SOLVER_NUMBERS[solver], both)


def graph_overlay(graph: HeldGraph, rule: str, look: Any, found: Found = shapes_in) -> Any:
    """The shapes of an overlay of an arrangement."""
    return found(graph.answer("overlay", RULE_NUMBERS[rule], options(look)))


def graph_hierarchy(graph: HeldGraph, rule: str, look: Any) -> tuple[list[Any], list[Any]]:
    """The shapes of an overlay of an arrangement, and its links."""
    return linked_in(graph.answer("hierarchy", RULE_NUMBERS[rule], options(look)))


def graph_edges(graph: HeldGraph) -> list[Any]:
    """The edges of an arrangement."""
    return edges_in(graph.answer("edges"))


# ---- edges, with the steps on which they lie


def add_steps(contours: Contours, side: int, closed: bool, edges: array[int], steps: list[Any]) -> None:
    """Adds the steps of paths, on a side, to the coordinates of edges, and to the steps their places: the side, and the
    numbers of path and step."""
    numbers, start = contours.numbers, 0
    for path, end in enumerate(contours.ends_of_each):
        for at in range(start, end if closed else end - 1):
            to = at + 1 if at + 1 < end else start
            edges.extend((numbers[2 * at], numbers[2 * at + 1], numbers[2 * to], numbers[2 * to + 1]))
            steps.append((side, path, at - start))
        start = end


def trace(
    subject: Any, clip: Any, rule: str | None, fill: str, solver: str, closed: bool
) -> tuple[list[Any], list[tuple[int, int, int]]]:
    """The edges of the arrangement, each with its sources, which name steps by their numbers; and these steps."""
    asked = library()
    edges, steps = array(COORDINATES), []  # type: ignore[var-annotated]
    for side, paths in enumerate((subject, clip)):
        add_steps(asked.contours(paths), side, closed, edges, steps)
    given = EdgeList(edges, array(BYTES, [side for side, _, _ in steps]))
    number = ALL_EDGES if rule is None else RULE_NUMBERS[rule]
    held = HeldTrace(asked, number, FILL_NUMBERS[fill], SOLVER_NUMBERS[solver], given)
    points = points_in(held.coordinates)
    sources = parted(held.sources, held.source_ends.tolist())
    return list(zip(points[0::2], points[1::2], held.fills.tolist(), sources)), steps
