"""The part of a shape that matters to a feature: the same region near it, by fewer edges.

A feature lies in convex regions, with a margin. A contour that lies beyond one side of each of them is left out. A
chain of a contour that does so is made one step: that lies beyond these sides too, so the contour winds as often round
each point of a region, and each edge that may meet the feature stays. A contour that winds round a region comes near
it, however far its edges are: its box, which is asked for, holds the region.

Contours, and the chains of each, stand in trees of boxes, so that a question costs by what is near."""

from __future__ import annotations

from functools import cached_property
from itertools import chain
from math import ceil, sqrt
from operator import attrgetter
from typing import Iterable, NamedTuple, Sequence

from .contour import Row, WholePath, points_in, row_of

# (how many points a chain has, and how many boxes stand in one)
CHAIN = 16
GROUP = 8
RUNS = 16
# (as many near points are taken as they are: to look closer costs more)
FEW = 200
# (64 rounds of splitting move a chain by 32 units at most)
MARGIN = 128

Box = tuple[int, int, int, int]
PLACE = attrgetter("place")


class Node:
    """A box: of the nodes in it, or of the steps from its points, to the next chain's too. These stand in a row; those
    of an inner node are its first one. `place` is that of a thing which is asked for by its box."""

    __slots__ = ("left", "low", "right", "high", "row", "parts", "place")

    def __init__(self, box: Box, row: Row, parts: Sequence[Node] = (), place: int = -1) -> None:
        self.left, self.low, self.right, self.high = box
        self.row, self.parts, self.place = row, parts, place


    def become(self, tree: Node) -> None:
        """Takes the nodes of a tree, whose box is the same."""
        self.row, self.parts = tree.row, tree.parts


class Side(NamedTuple):
    """A side of a region that is neither upright nor level: beyond it a x + b y is above c."""

    a: int
    b: int
    c: int

    def is_beyond(self, node: Node) -> bool:
        """Whether all of a box is beyond."""
        least = self.a * (node.left if self.a > 0 else node.right)
        return least + self.b * (node.low if self.b > 0 else node.high) > self.c


class Region(NamedTuple):
    """A convex region: a box, and other sides."""

    left: int
    low: int
    right: int
    high: int
    sides: tuple[Side, ...] = ()

    def has_near(self, node: Node) -> bool:
        """Whether a box is beyond no side."""
        if node.right < self.left or node.left > self.right or node.high < self.low or node.low > self.high:
            return False
        for side in self.sides:
            if side.is_beyond(node):
                return False
        return True


# ---- regions


def box_round(row: Row) -> Box:
    """The box of points in a row: left, low, right, high."""
    xs, ys = row[0::2], row[1::2]
    return min(xs), min(ys), max(xs), max(ys)


def box_region(row: Row) -> Region:
    """The box round points in a row, with the margin."""
    xs, ys = row[0::2], row[1::2]
    return Region(min(xs) - MARGIN, min(ys) - MARGIN, max(xs) + MARGIN, max(ys) + MARGIN)


def box_region_round(regions: Sequence[Region]) -> Region:
    """The box round regions."""
    lefts, lows, rights, highs, _ = zip(*regions)
    return Region(min(lefts), min(lows), max(rights), max(highs))


def side_of(points: WholePath, a: int, b: int) -> Side:
    """The side of points in a direction, with the margin."""
    return Side(a, b, max(a * x + b * y for x, y in points) + MARGIN * (abs(a) + abs(b)))


def run_region(points: WholePath) -> Region:
    """The region round points: their box, and sides along the way from first to last, and across."""
    along, up = points[-1][0] - points[0][0], points[-1][1] - points[0][1]
    ways = [(-up, along), (up, -along), (along, up), (-along, -up)] if along and up else []
    return box_region(row_of(points))._replace(sides=tuple(side_of(points, a, b) for a, b in ways))


def regions_of_runs(rows: Sequence[Row]) -> list[Region]:
    """Regions that hold all steps of lines: each has a run of one line; some runs in all, but one a line at least."""
    lines = list(map(points_in, rows))
    most = max(2, 1 + sum(map(len, lines)) // RUNS)
    runs = [line[at : at + most] for line in lines for at in range(0, max(1, len(line) - 1), most - 1)]
    return [run_region(run) for run in runs]


def regions_of_contours(contours: Sequence[Row]) -> list[Region]:
    """Regions that hold all that contours wind round: boxes, each of one of them, or of some where they are many."""
    count = ceil(len(contours) / RUNS)
    groups = [contours[at : at + count] for at in range(0, len(contours), max(1, count))]
    return [box_region(group[0] if len(group) == 1 else list(chain.from_iterable(group))) for group in groups]


# ---- trees


def joined(nodes: Sequence[Node]) -> Node:
    """A node of nodes."""
    box = (
        min(node.left for node in nodes),
        min(node.low for node in nodes),
        max(node.right for node in nodes),
        max(node.high for node in nodes),
    )
    return Node(box, nodes[0].row[:2], nodes)


def grouped(nodes: Sequence[Node]) -> list[Node]:
    """Nodes of some nodes each, whose order stays."""
    return [joined(nodes[at : at + GROUP]) for at in range(0, len(nodes), GROUP)]


def tree_of(nodes: list[Node]) -> Node:
    """The root over nodes, whose order stays."""
    while len(nodes) > 1:
        nodes = grouped(nodes)
    return nodes[0]


def chains_of(contour: Row) -> list[Node]:
    """The chains of a contour, one behind the other."""
    closed, step = contour + contour[:2], 2 * CHAIN
    return [Node(box_round(closed[at : at + step + 2]), contour[at : at + step]) for at in range(0, len(contour), step)]


def whole_node(contour: Row) -> Node:
    """The node of a contour, whose chains are made where they are asked for."""
    return Node(box_round(contour), contour)


def packed(nodes: Sequence[Node]) -> list[Node]:
    """Nodes in an order in which those that are near one another stand together: by stripes of x, and there by y. A
    stripe has as many as fill whole groups, and groups of these, so that none has nodes of two stripes."""
    across = sorted(nodes, key=lambda node: node.left + node.right)
    wanted, whole = sqrt(len(nodes) * GROUP), GROUP
    while whole * GROUP <= wanted:
        whole *= GROUP
    count = whole * max(1, round(wanted / whole))
    stripes = [across[at : at + count] for at in range(0, len(nodes), count)]
    return [node for each in stripes for node in sorted(each, key=lambda node: node.low + node.high)]


def near_of(node: Node, regions: Sequence[Region]) -> Sequence[Region]:
    """The regions that have a node near."""
    if len(regions) == 1:
        return regions if regions[0].has_near(node) else ()
    return [region for region in regions if region.has_near(node)]


class Index:
    """Things in boxes, of which those near regions are asked for again and again."""

    def __init__(self, nodes: Sequence[Node]) -> None:
        for place, node in enumerate(nodes):
            node.place = place
        # (as many boxes stand round each thing)
        self.depth, self.top = 0, packed(nodes)
        while len(self.top) > GROUP:
            self.depth, self.top = self.depth + 1, grouped(self.top)

    def near(self, regions: Sequence[Region]) -> list[Node]:
        """The things that come near any region, in order."""
        if not regions:
            return []
        left, low, right, high, sides = regions[0] if len(regions) == 1 else box_region_round(regions)
        nodes = [
            node
            for node in self.top
            if node.left <= right and node.right >= left and node.low <= high and node.high >= low
        ]
        for _ in range(self.depth):
            nodes = [
                part
                for node in nodes
                for part in node.parts
                if part.left <= right and part.right >= left and part.low <= high and part.high >= low
            ]
        if len(regions) > 1 or sides:
            nodes = [node for node in nodes if near_of(node, regions)]
        return sorted(nodes, key=PLACE)


def add_kept(node: Node, regions: Sequence[Region], found: Row) -> None:
    """Adds the points of the chains in a node that are near, and the first one alone of each node that is far."""
    near = near_of(node, regions)
    if not near:
        found += node.row[:2]
    elif node.parts:
        for part in node.parts:
            add_kept(part, near, found)
    else:
        found += node.row


def add_in_box(node: Node, region: Region, found: Row) -> None:
    """As `add_kept`, of a node whose box comes near one region without other sides."""
    left, low, right, high, _ = region
    for part in node.parts:
        if part.right < left or part.left > right or part.high < low or part.low > high:
            found += part.row[:2]
        elif part.parts:
            add_in_box(part, region, found)
        else:
            found += part.row


class Nearby:
    """A shape that is asked again and again for its part near lines, or near other contours: for contours, the
    coordinates of each in a row."""

    def __init__(self, contours: Iterable[Row]) -> None:
        self.contours = [contour for contour in contours if contour]

    @cached_property
    def index(self) -> Index:
        """Their nodes, which are made where they are asked for."""
        return Index(list(map(whole_node, self.contours)))

    def part(self, lines: Sequence[Row]) -> list[Row]:
        """Contours that wind near the lines, which are rows, as those of the shape do."""
        lines = [line for line in lines if line]
        if not lines:
            return []
        found = self.near([box_region(lines[0] if len(lines) == 1 else list(chain.from_iterable(lines)))])
        return found if sum(map(len, found)) <= 2 * FEW else self.near(regions_of_runs(lines))

    def part_within(self, contours: Sequence[Row]) -> list[Row]:
        """Contours that wind as those of the shape do wherever the given ones may fill."""
        return self.near(regions_of_contours([contour for contour in contours if contour]))

    def near(self, regions: Sequence[Region]) -> list[Row]:
        """Contours that wind in the regions as those of the shape do."""
        kept: list[Row] = []
        is_box = len(regions) == 1 and not regions[0].sides
        for root in self.index.near(regions):
            if len(root.row) <= 2 * CHAIN and not root.parts:
                # (a chain alone is near, as the index tells)
                kept.append(root.row)
                continue
            if not root.parts:
                root.become(tree_of(chains_of(root.row)))
            row: Row = []
            if is_box:
                add_in_box(root, regions[0], row)
            else:
                add_kept(root, regions, row)
            kept.append(row)
        return kept


class LinesNearby:
    """Open paths that are asked again and again for those near contours."""

    def __init__(self, lines: Iterable[Row]) -> None:
        self.lines = [line for line in lines if line]
        self.index = Index([Node(box_round(line), []) for line in self.lines])

    def part(self, contours: Iterable[Row]) -> list[Row]:
        """The lines whose boxes come near what the contours may fill."""
        regions = regions_of_contours([contour for contour in contours if contour])
        return [self.lines[node.place] for node in self.index.near(regions)]
