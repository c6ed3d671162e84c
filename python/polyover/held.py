"""What the library for C holds for as long as it is asked: shapes, graphs and traced edges."""

from __future__ import annotations

from ctypes import string_at
from typing import Any
from weakref import finalize

from .flat import address_of
from .library import Held, Library
from .statuses import check
from .structs import BYTES, COORDINATES, ITEM_SIZES, SIZES, SOURCE, Contours, EdgeList, ExactShape, Graph
from .structs import PreparedShape, Traced


class Kept:
    """What an object of the module holds in memory of the library."""

    OWNER = ""

    def __reduce__(self) -> Any:
        told = f"{self.OWNER} is in memory of the library, and can't be pickled or copied deeply"
        raise TypeError(f"{told}: keep its contours and its fill rule, and make it anew of these")


class HeldShape(Kept):
    """A prepared shape, where the library has it: its memory is freed once nothing refers to this."""

    OWNER = "Prepared"
    TYPE: type[PreparedShape] = PreparedShape
    MADE, ASKED, FREED = "polyover_prepare", "polyover_prepared_locate", "polyover_prepared_free"

    def __init__(self, asked: Library, *given: Any) -> None:
        self.asked, self.shape = asked, self.TYPE()
        check(asked.call(self.MADE, *given, self.shape))
        finalize(self, getattr(asked.functions, self.FREED), self.shape)

    def locate(self, points: Any) -> bytearray:
        """A number for each point, which tells where it lies."""
        queries = self.asked.contours([points])
        found = bytearray(queries.coordinate_count // 2)
        room, _ = address_of(found)
        given = queries.coordinates, queries.coordinate_count
        check(self.asked.call(self.ASKED, self.shape, *given, room, len(found)))
        return found


class HeldExactly(HeldShape):
    """A shape as it is given, where the library has it."""

    TYPE = ExactShape
    MADE, ASKED, FREED = "polyover_prepare_exact", "polyover_exact_locate", "polyover_exact_free"


class HeldGraph(Kept):
    """A graph, where the library has it: its memory is freed once nothing refers to this."""

    OWNER = "Arrangement"

    def __init__(self, asked: Library, fill: int, solver: int, both: tuple[Contours, Contours]) -> None:
        self.asked, self.graph = asked, Graph()
        # (points on one line are dropped, as by each other call)
        check(asked.call("polyover_arrange", fill, solver, 0, *both, self.graph))
        finalize(self, asked.functions.polyover_graph_free, self.graph)

    def answer(self, call: str, *given: Any) -> Held:
        """What a question is answered."""
        return self.asked.answer(f"polyover_graph_{call}_result", self.graph, *given)


class HeldTrace:
    """Traced edges, where the library has them: their memory is freed once nothing refers to this."""

    def __init__(self, asked: Library, rule: int, fill: int, solver: int, edges: EdgeList) -> None:
        self.traced = Traced()
        finalize(self, asked.functions.polyover_traced_free, self.traced)
        check(asked.call("polyover_trace", rule, fill, solver, edges, self.traced))

    def numbers(self, kind: str, place: int | None, count: int) -> memoryview:
        """A copy of that many numbers of a kind at a place."""
        return memoryview(string_at(place or 0, count * ITEM_SIZES[kind]) if count else b"").cast(kind)

    @property
    def coordinates(self) -> memoryview:
        """The coordinates of both ends of each edge."""
        return self.numbers(COORDINATES, self.traced.coordinates, self.traced.coordinate_count)

    @property
    def fills(self) -> memoryview:
        """The bits of the filled sides of each edge."""
        return self.numbers(BYTES, self.traced.fills, self.traced.fill_count)

    @property
    def source_ends(self) -> memoryview:
        """How many sources there are up to the last one of each edge."""
        return self.numbers(SIZES, self.traced.source_ends, self.traced.source_end_count)

    @property
    def sources(self) -> list[tuple[int, int, int]]:
        """Of each source the number of a given edge, whether it was cut, and whether it is reversed."""
        count = self.traced.source_count
        held = string_at(self.traced.sources or 0, count * SOURCE.size) if count else b""
        return [(edge, cut, is_reversed) for edge, cut, is_reversed in SOURCE.iter_unpack(held)]
