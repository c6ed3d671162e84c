"""The calls: contours of whole points in, lists of shapes out."""

from __future__ import annotations

from typing import Any, Literal, NamedTuple, overload

from . import by_library, by_program
from .errors import BadInput, BadType, LibraryMissing
from .flat import Flat, FlatFloats, FlatShapes, whole_path
from .geojson import is_geometry, points_of
from .plain import LISTS
from .shapes import Paths, Shapes
from .text import FILLS, LOCATIONS, RULES, SNAPPED, SOLVERS, Fill, Rule, Solver, coordinate, items_of, known, truth
from .text import whole
from .told import Told, counted

AREA_LIMIT = 2**127 - 1
# (types whose items have no order, or are no numbers that were written so)
UNFIT = (set, frozenset, dict, bytes, bytearray, str)
# (kinds of NumPy's times, which lists have as whole numbers)
TIMES = ("m", "M")
NO_OPTIONS = (
    "no library whose slices have a direction and a minimum area, and the program has neither: "
    "the library of this version is in a release's wheel, or scripts/build or make -C c builds it"
)
MORE = counted("members of # [point|points] beyond x and y are left out")


class Look(NamedTuple):
    """How the answer of an overlay looks, and how its edges are split."""

    ogc: bool
    clockwise: bool
    keep: bool
    minimum_area: int
    solver: Solver = SNAPPED


def look_of(ogc: bool, clockwise: bool, keep: bool, minimum_area: Any, solver: Solver) -> Look:
    """How an answer looks by these options."""
    turns, keeps = truth("clockwise", clockwise), truth("keep", keep)
    return Look(truth("ogc", ogc), turns, keeps, area_of(minimum_area), solver_of(solver))


def area_of(minimum_area: Any) -> int:
    """The smallest area that is kept."""
    try:
        area = whole(minimum_area)
    except BadInput:
        raise BadInput(f"the minimum area {minimum_area!r} is no whole number") from None
    if not 0 <= area <= AREA_LIMIT:
        raise BadInput(f"the minimum area {minimum_area} is not from 0 to {AREA_LIMIT}")
    return area


def solver_of(solver: Solver) -> Solver:
    """The name of a solver."""
    return known(SOLVERS, solver, "solver")


def asked(call: str) -> Any:
    """What answers a call: the library, where it is there and has the call, or else the program."""
    return by_library if by_library.can(call) else by_program


def backend(call: str = "overlay") -> str:
    """What answers the call of that name: "library" or "program"."""
    return str(asked(call).NAME)


def built() -> str:
    """Whether what answers is made of the proved module: "proved" or "unproved". Of the program, and of a library that
    does not tell, "unknown"."""
    return by_library.built() if asked("overlay") is by_library else "unknown"


def shapes_of(call: str, arrays: bool, *given: Any) -> Shapes | FlatShapes:
    """The shapes that a call answers, in lists or in arrays."""
    by = asked(call)
    answer = getattr(by, call)
    if not arrays:
        return Shapes(answer(*given))
    return answer(*given, by_library.flat_shapes) if by is by_library else FlatShapes.of(answer(*given))


def flat_of(paths: list[Any]) -> Flat:
    """Paths of lists in arrays."""
    return FlatShapes.of([paths]).contours


# ---- what is given


def listed(name: str, paths: Any, told: Told | None = None) -> Any:
    """Lists of points of two members, of a group of paths, and buffers of arrays of whole points. What points have
    beyond x and y is left out, if it is counted in `told`, and else a fault."""
    if isinstance(paths, FlatFloats):
        raise BadInput(f"{name}: an array of floats: Scaled takes floats")
    if isinstance(paths, Flat):
        return paths
    if not isinstance(paths, (list, tuple)):
        if is_geometry(paths):
            what = "points" if name == "points" else f"{kind_of(name)}s"
            raise BadInput(f"{name}: a geometry in the place of a list of {what}: Scaled takes geometries, at a scale")
        paths = iterated(name, paths, f"a list of {kind_of(name)}s")
    found: list[Any] = []
    for number, path in enumerate(paths, 1):
        if isinstance(path, (list, tuple)):
            found.append(path if are_pairs(path) else listed_points(name, number, path, told))
        else:
            buffer = whole_path(path)
            found.append(listed_points(name, number, path, told) if buffer is None else buffer)
    return found


def listed_queries(points: Any) -> Any:
    """Points that are located, as lists or a buffer. Those of a geometry are often floats, and taken where these are
    whole numbers."""
    if is_geometry(points):
        points = [[int(value) if value == value // 1 else value for value in point] for point in points_of(points)]
    return listed("points", [points])[0]


def are_pairs(points: Any) -> bool:
    """Whether a list has points of two members."""
    kinds = set(map(type, points))
    if kinds <= LISTS:
        return set(map(len, points)) <= {2}
    # (what can be gone over once alone is made a point first)
    if any(issubclass(kind, UNFIT) or not hasattr(kind, "__len__") for kind in kinds):
        return False
    try:
        for _, _ in points:
            pass
    except (TypeError, ValueError):
        return False
    return True


def listed_points(name: str, number: int, path: Any, told: Told | None) -> list[Any]:
    """The points of a path of another kind."""
    place = place_of(name, number)
    points = iterated(place, path, "a list of points")
    if are_pairs(points):
        return points
    return [checked_point(f"{place}, point {at}", point, told) for at, point in enumerate(points, 1)]


def kind_of(name: str) -> str:
    """The kind of the paths in a group."""
    return "line" if name == "lines" else "contour"


def place_of(name: str, number: int) -> str:
    """Where a path stands in a group; the points that are located are one group by themselves."""
    return name if name == "points" else f"{name}: {kind_of(name)} {number}"


def iterated(place: str, things: Any, what: str) -> list[Any]:
    """The items of a list, or of whatever can be gone over."""
    if not isinstance(things, (list, tuple)):
        if isinstance(things, UNFIT):
            raise BadType(f"{place}: {type(things).__name__} in the place of {what}")
        if not hasattr(things, "__iter__") or getattr(things, "ndim", 1) == 0:
            raise BadInput(f"{place}: {things!r} in the place of {what}")
        check_unused(place, things, what)
        if getattr(getattr(things, "dtype", None), "kind", "") in TIMES:
            raise BadType(f"{place}: an array of times in the place of {what}")
        # (arrays of numbers are numbers of Python sooner than one by one)
        try:
            found = things.tolist() if hasattr(things, "tolist") else None
        except NotImplementedError as fault:
            raise BadInput(f"{place}: {fault}") from None
        things = found if isinstance(found, list) else list(things)
    return things  # type: ignore[no-any-return]


def check_unused(place: str, things: Any, what: str) -> None:
    """That a generator has not been gone over before: it would give nothing."""
    if getattr(things, "gi_frame", things) is None:
        raise BadInput(f"{place}: a generator that was gone over before in the place of {what}")


def checked_point(place: str, point: Any, told: Told | None) -> Any:
    """A point of two members, or of more where that is counted."""
    if isinstance(point, UNFIT):
        raise BadType(f"{place}: {type(point).__name__} in the place of a point")
    try:
        members = tuple(point)
    except TypeError:
        raise BadInput(f"{place}: {point!r} is no point: contours and lines are lists of points, in a list") from None
    if len(members) == 2:
        return members
    if told is None or len(members) < 2:
        raise BadInput(f"{place}: {point!r} is no point of two members")
    told.add(MORE, place)
    return members[:2]


class placed:  # pylint: disable=invalid-name
    """Names the place of the first coordinate that is no whole number in the range, where that is a fault."""

    def __init__(self, **groups: Any) -> None:
        self.groups = groups

    def __enter__(self) -> None:
        pass

    def __exit__(self, kind: type[BaseException] | None, *_: object) -> None:
        if kind is not None and issubclass(kind, BadInput):
            for name, paths in self.groups.items():
                if isinstance(paths, Flat):
                    paths.check_ends(f"{name}: ends")
                for number, path in enumerate(paths, 1):
                    check_coordinates(name, number, path)


def check_coordinates(name: str, number: int, path: Any) -> None:
    """That the coordinates of a path are whole numbers in the range."""
    for at, point in enumerate(items_of(path), 1):
        try:
            for value in point:
                coordinate(value)
        except BadInput as fault:
            raise type(fault)(f"{place_of(name, number)}, point {at}: {fault}") from None


# ---- the calls


def overlay(
    subject: Any,
    clip: Any = (),
    rule: Rule = "union",
    fill: Fill = "nonzero",
    *,
    ogc: bool = True,
    clockwise: bool = False,
    keep: bool = False,
    minimum_area: int = 0,
    solver: Solver = SNAPPED,
    arrays: bool = False,
) -> Any:
    """Returns the shapes round the region where the rules hold of two lists of contours. A shape is its outline, then
    its holes. With `arrays` they are `FlatShapes`.

    The solver, of this call and the others, tells how edges are split where they meet: "snapped", by snap rounding, or
    "rounds". The program has rounds alone."""
    look = look_of(ogc, clockwise, keep, minimum_area, solver)
    rule, fill = known(RULES, rule, "rule"), known(FILLS, fill, "fill rule")
    subject, clip = listed("subject", subject), listed("clip", clip)
    with placed(subject=subject, clip=clip):
        return shapes_of("overlay", arrays, subject, clip, rule, fill, look)


def hierarchy(
    subject: Any,
    clip: Any = (),
    rule: Rule = "union",
    fill: Fill = "nonzero",
    *,
    ogc: bool = True,
    clockwise: bool = False,
    keep: bool = False,
    minimum_area: int = 0,
    solver: Solver = SNAPPED,
) -> tuple[Shapes, list[tuple[int, int, int]]]:
    """Returns the shapes of `overlay`, and a triple for each shape in a hole of another: the number of the other shape,
    of the hole among all contours, and of the shape, counted from 0."""
    look = look_of(ogc, clockwise, keep, minimum_area, solver)
    rule, fill = known(RULES, rule, "rule"), known(FILLS, fill, "fill rule")
    subject, clip = listed("subject", subject), listed("clip", clip)
    with placed(subject=subject, clip=clip):
        shapes, links = asked("hierarchy").hierarchy(subject, clip, rule, fill, look)
    return Shapes(shapes), links


def simplify(
    subject: Any,
    fill: Fill = "nonzero",
    *,
    ogc: bool = True,
    clockwise: bool = False,
    keep: bool = False,
    minimum_area: int = 0,
    solver: Solver = SNAPPED,
    arrays: bool = False,
) -> Any:
    """Returns the shapes round the filled region, as `overlay` with the rule subject does. One simple contour stays as
    it is given, or is reversed, unless there is a minimum area."""
    look = look_of(ogc, clockwise, keep, minimum_area, solver)
    fill, subject = known(FILLS, fill, "fill rule"), listed("subject", subject)
    with placed(subject=subject):
        return shapes_of("simplify", arrays, subject, fill, look)


def edges(
    subject: Any, clip: Any = (), fill: Fill = "nonzero", *, solver: Solver = SNAPPED
) -> list[tuple[Any, Any, int]]:
    """Returns the edges of the arrangement in order: two points, and the sum of the bits of the filled sides."""
    fill, subject, clip = known(FILLS, fill, "fill rule"), listed("subject", subject), listed("clip", clip)
    solver = solver_of(solver)
    with placed(subject=subject, clip=clip):
        return list(asked("edges").edges(subject, clip, fill, solver))


def clip(
    shape: Any,
    lines: Any,
    fill: Fill = "nonzero",
    *,
    invert: bool = False,
    boundary: bool = False,
    solver: Solver = SNAPPED,
    arrays: bool = False,
) -> Any:
    """Returns the parts of open paths inside the shape, with `invert` outside, with `boundary` also along its boundary.
    With `arrays` they are `Flat`."""
    fill, shape, lines = known(FILLS, fill, "fill rule"), listed("shape", shape), listed("lines", lines)
    solver = solver_of(solver)
    with placed(shape=shape, lines=lines):
        given = shape, lines, fill, truth("invert", invert), truth("boundary", boundary), solver
        if not arrays:
            return Paths(asked("clip").clip(*given))
        is_there = by_library.can("clip")
        return by_library.clip(*given, by_library.flat_paths) if is_there else flat_of(by_program.clip(*given))


def slice(  # pylint: disable=redefined-builtin
    shape: Any,
    lines: Any,
    fill: Fill = "nonzero",
    *,
    clockwise: bool = False,
    minimum_area: int = 0,
    solver: Solver = SNAPPED,
    arrays: bool = False,
) -> Any:
    """Returns the shapes into which open paths cut a shape, with `arrays` as `FlatShapes`. Outlines run
    counterclockwise, or `clockwise`. Contours of a smaller area than the minimum are left out. The program has neither
    option: without the library there is LibraryMissing."""
    fill, shape, lines = known(FILLS, fill, "fill rule"), listed("shape", shape), listed("lines", lines)
    solver, area = solver_of(solver), area_of(minimum_area)
    with placed(shape=shape, lines=lines):
        if not truth("clockwise", clockwise) and not area:
            return shapes_of("slice", arrays, shape, lines, fill, solver)
        if not by_library.can("slice_custom"):
            raise LibraryMissing(NO_OPTIONS)
        found = by_library.flat_shapes if arrays else by_library.shapes_in
        answer = by_library.slice_custom(shape, lines, fill, bool(clockwise), area, solver, found)
        return answer if arrays else Shapes(answer)


def tiles(
    shape: Any, width: int, height: int, fill: Fill = "nonzero", *, solver: Solver = SNAPPED, arrays: bool = False
) -> Any:
    """Returns the shapes into which the cells of a grid cut a shape, each in one cell. A node of the grid is at (0, 0).
    With `arrays` they are `FlatShapes`."""
    fill, solver, shape = known(FILLS, fill, "fill rule"), solver_of(solver), listed("shape", shape)
    sides = side("width", width), side("height", height)
    with placed(shape=shape):
        return shapes_of("tiles", arrays, shape, *sides, fill, solver)


def side(name: str, value: Any) -> int:
    """The width or the height of a cell."""
    try:
        return coordinate(value)
    except BadInput as fault:
        raise BadInput(f"the {name} of cells: {fault}") from None


def is_resolved(shape: Any) -> bool:
    """Returns whether `locate` takes the contours: steps of each share points only where these are ends of both."""
    shape = listed("shape", shape)
    with placed(shape=shape):
        return bool(asked("is_resolved").is_resolved(shape))


@overload
def locate(shape: Any, points: Any, *, arrays: Literal[False] = False) -> list[str]: ...


@overload
def locate(shape: Any, points: Any, *, arrays: Literal[True]) -> memoryview: ...


def locate(shape: Any, points: Any, *, arrays: bool = False) -> list[str] | memoryview:
    """Returns where each point lies: "inside", "boundary" or "outside". Contours are joined by exclusive or. Points may
    be a geometry. With `arrays` the answer is an array of bytes: of each point the place of its word in `LOCATIONS`."""
    shape, queries = listed("shape", shape), listed_queries(points)
    with placed(shape=shape, points=[queries]):
        found = asked("locate").locate(shape, queries)
    return memoryview(found) if arrays else words_of(found)


def words_of(found: bytearray) -> list[str]:
    """The words of places in `LOCATIONS`."""
    return list(map(LOCATIONS.__getitem__, found))
