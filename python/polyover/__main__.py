"""Overlays of files of GeoJSON, GeoJSONSeq, WKT, WKB, GeoPackage and Shapefile, and pictures."""

from __future__ import annotations

import argparse
import gc
import re
import sys
from contextlib import contextmanager
from fractions import Fraction
from typing import Any, Callable, Iterator, Mapping, Sequence

from . import calls, runs
from .answers import say, warnings_as_lines
from .errors import OutOfMemory, PolyoverError
from .formats import STANDARD, STREAMED
from .interrupts import end_at_once, end_by_interrupt
from .leaving import leave, parted
from .memory import is_of_memory, limited, size_in
from .picture import WIDTH
from .program import program
from .running import run
from .streams import told, write_all
from .text import FILLS, RELATION_SOLVERS, RULES, SNAPPED, SOLVERS

LEAST_WIDTH = 400
# (objects between two collections)
ALLOCATED = 5_000_000
LONG_EXPONENT = re.compile("[eE][-+]?[0-9_]{4}")
EXAMPLES = {
    "overlay": "overlay LAND.geojson LAKES.geojson --rule difference --out DRY.geojson --svg DRY.svg",
    "relate": "relate PARCEL.geojson ZONE.geojson",
    "clip": "clip AREAS.geojson ROADS.geojson --out INSIDE.geojson",
    "slice": "slice FIELDS.geojson FENCES.geojson --out PARTS.geojson",
    "simplify": "simplify ANY.geojson --out VALID.geojson",
    "tiles": "tiles LAND.geojson 10 10 --out TILES.geojson",
    "locate": "locate ZONES.geojson POINTS.geojson --out WHERE.geojson",
    "svg": "svg examples/overlay.txt --nodes --out overlay.svg",
}
LIBRARIES = {
    "proved": "a proved library",
    "unproved": "an unproved library",
    "unknown": "a library that does not tell whether it is proved",
}
KEEPS = ("first", "both")
OF_POLYGONS, OF_LINES = ("overlay", "relate"), ("clip", "slice")


# ---- words


def width_in(word: str) -> int:
    """The width of a picture."""
    width = int(word)
    if not LEAST_WIDTH <= width <= 100_000:
        raise ValueError
    return width


def digits_in(word: str) -> int:
    """How many digits behind the decimal point coordinates have."""
    digits = int(word)
    if not -300 <= digits <= 300:
        raise ValueError
    return digits


def port_in(word: str) -> int:
    """A port, or 0."""
    port = int(word)
    if not 0 <= port <= 65535:
        raise ValueError
    return port


def number_in(word: str) -> Fraction:
    """A number that is not below 0. (One with an exponent of many digits would take all memory.)"""
    if len(word) > 100 or LONG_EXPONENT.search(word):
        raise ValueError
    try:
        number = Fraction(word)
    except ZeroDivisionError:
        raise ValueError from None
    if number < 0:
        raise ValueError
    return number


def file_in(word: str) -> str:
    """The name of a file. (An empty one, as of a variable that is not set, would stand for standard output.)"""
    if not word:
        raise ValueError
    return word


width_in.__name__ = f"width, which is from {LEAST_WIDTH} to 100000,"
digits_in.__name__ = "count of digits, which is from -300 to 300,"
port_in.__name__ = "port, which is from 0 to 65535,"
number_in.__name__ = "number from 0 on"
file_in.__name__ = "name of a file, which has a letter at least,"


def add_files(command: argparse.ArgumentParser, name: str) -> None:
    """The words for the files of a command, and how they are read."""
    command.add_argument("subject", metavar="A.geojson", help="polygons; - for standard input")
    if name == "tiles":
        command.add_argument("wide", type=number_in, metavar="WIDE", help="how wide a cell of the grid is")
        command.add_argument("high", type=number_in, metavar="HIGH", help="how high it is; a node is at (0, 0)")
    elif name != "simplify":
        what = "polygons" if name in OF_POLYGONS else "lines" if name in OF_LINES else "points"
        command.add_argument("other", metavar="B.geojson", help=what)
    digits = "how many digits of coordinates behind the point count (7)"
    command.add_argument("--digits", type=digits_in, default=7, metavar="N", help=digits)
    fills = "which windings of rings count, as they run; else polygons cover what is in their outline and in no hole"
    command.add_argument("--fill", choices=list(FILLS), help=fills)
    if name == "relate":
        tells = "exact tells relations of the rings as they are, by the library (its default); others of an arrangement"
        command.add_argument("--solver", choices=RELATION_SOLVERS, help=tells)
    elif name != "locate":
        splits = "how edges are split: by snap rounding, which the library alone has, or in rounds (snapped)"
        command.add_argument("--solver", choices=SOLVERS, default=SNAPPED, help=splits)
    skips = "leave out, and count, rings of less than three points and lines of less than two"
    command.add_argument("--skip-invalid", action="store_true", help=skips)
    cuts = "cut polygons and lines that pass the antimeridian at 180 degrees first; without it coordinates are planar"
    command.add_argument("--antimeridian", choices=["cut"], help=cuts)
    streamed = "the format of standard input and output (geojson); that of a file is told by the end of its name"
    command.add_argument("--format", choices=list(STREAMED), default="geojson", help=streamed)


def add_answers(command: argparse.ArgumentParser, name: str) -> None:
    """The words for what a command leaves."""
    what = "picture" if name == "svg" else "answer"
    goes = f"where the {what} goes, if not to standard output"
    command.add_argument("--out", type=file_in, metavar="FILE", help=goes)
    if name not in ("relate", "svg"):
        command.add_argument("--svg", type=file_in, metavar="FILE", help="where a picture goes")
        drops = "leave out, and count, what the format of the answer does not hold, as properties of WKT"
        command.add_argument("--drop", action="store_true", help=drops)
    quiets = "no bar or line of work that takes long"
    quiets += "" if name == "svg" else ", and no warning of rings and lines that span more than 180 degrees"
    command.add_argument("--quiet", action="store_true", help=quiets)
    limits = "a limit on memory, as 500M or 4G, from 64M on: beyond it the command is refused, with status 1"
    command.add_argument("--memory", type=size_in, metavar="SIZE", help=limits)
    if name != "relate":
        command.add_argument("--width", type=width_in, default=WIDTH, metavar="N", help=f"of the picture ({WIDTH})")


def add_options(commands: Mapping[str, argparse.ArgumentParser]) -> None:
    """The words of single commands."""
    commands["overlay"].add_argument("--rule", choices=list(RULES), default="union", help="(union)")
    keeps = (
        "first, or no word: a feature for each of A that gives pieces, with its members, of the rules intersect and"
        " difference; both: one for each pair that meets, with the properties of both, and for what is left of each;"
        " subject and clip stand for all of that in A, or in B"
    )
    commands["overlay"].add_argument("--keep", choices=KEEPS, help=keeps)
    ids = "with --keep both, properties id_1 and id_2: the ids of the features, or their numbers where they have none"
    commands["overlay"].add_argument("--id", action="store_true", help=ids)
    for name in ("overlay", "simplify"):
        least = "the smallest area of a contour that is kept, in squares of the coordinates' unit (0)"
        commands[name].add_argument("--min-area", type=number_in, default=Fraction(0), metavar="N", help=least)
    commands["clip"].add_argument("--invert", action="store_true", help="keep the parts outside")
    commands["clip"].add_argument("--boundary", action="store_true", help="keep those along the boundary too")
    commands["svg"].add_argument("input", metavar="INPUT.txt", help="as docs/PROGRAM.md says; - for standard input")
    commands["svg"].add_argument("--nodes", action="store_true", help="show the ends of the arrangement's edges")


def run_program(_: argparse.Namespace) -> int:
    """Answers an input of the program on standard input, as the program does"""
    return run()


def run_play(given: argparse.Namespace) -> None:
    """The page on which contours are drawn, served on this machine alone, or left as one file"""
    # (a server of http takes as long to import as all else)
    from .one_file import page_in_one
    from .play import page, serve

    if given.out:
        leave([(parted(page_in_one(page())), given.out)])
    else:
        serve(given.port)


def add_play(commands: Any) -> None:
    """The command for the page, and its words."""
    about = {"help": run_play.__doc__, "description": f"{run_play.__doc__}."}
    command = commands.add_parser("play", **about)
    goes = "where the page goes, in one file that needs no server"
    command.add_argument("--out", type=file_in, metavar="FILE", help=goes)
    port = "where it is served; 0 for any port that is free (0)"
    command.add_argument("--port", type=port_in, default=0, metavar="N", help=port)
    command.set_defaults(run=run_play)


def asked() -> str:
    """What answers, in words."""
    try:
        if calls.backend() == "library":
            return LIBRARIES[calls.built()]
        return f"the program {program()}"
    except PolyoverError as fault:
        return f"nothing: {fault}"


def version() -> str:
    """The version of the module, and what answers."""
    return f"polyover {getattr(sys.modules[__package__], '__version__', 'of a clone')} over {asked()}\n"


class Version(argparse.Action):
    """Writes the version, and ends."""

    def __call__(self, parser: argparse.ArgumentParser, *_: Any) -> None:
        write_all(version())
        parser.exit()


class Once(argparse.Action):
    """Keeps the value of an option or a word, which comes once: a second value is refused."""

    is_given = False

    def __call__(self, parser: argparse.ArgumentParser, namespace: Any, values: Any, *_: Any) -> None:
        if self.is_given:
            raise argparse.ArgumentError(self, "it comes twice")
        self.is_given = True
        setattr(namespace, self.dest, values)


class Parser(argparse.ArgumentParser):
    """A parser whose help is written to its end, or fails, and whose options take one value."""

    def __init__(self, *given: Any, **how: Any) -> None:
        super().__init__(*given, **how)
        # (where no action is named)
        self.register("action", None, Once)

    def print_help(self, file: Any = None) -> None:
        write_all(self.format_help())


def with_keep(words: Sequence[str]) -> list[str]:
    """The words of the command line, where --keep has a word of its own: first, where none of both follows it."""
    found: list[str] = []
    for word in words:
        if found and found[-1] == "--keep":
            found[-1] = f"--keep={word if word in KEEPS else KEEPS[0]}"
            if word in KEEPS:
                continue
        found.append(word)
    return [f"--keep={KEEPS[0]}" if word == "--keep" else word for word in found]


def parsed(words: Sequence[str] | None) -> argparse.Namespace:
    """The words of the command line."""
    prog = "python -m polyover"
    how: dict[str, Any] = {"formatter_class": argparse.RawDescriptionHelpFormatter}
    every = "\n".join(f"  {prog} {example}" for example in EXAMPLES.values())
    parser = Parser(prog=prog, description=__doc__, epilog=f"examples:\n{every}", **how)
    parser.add_argument("--version", action=Version, nargs=0, help="the version, and whether the library is proved")
    commands = parser.add_subparsers(required=True, metavar="COMMAND")
    for name, example in EXAMPLES.items():
        run: Callable[[Any], None] = getattr(runs, f"run_{name}")
        help_of: dict[str, Any] = {"help": run.__doc__, "description": f"{run.__doc__}.", **how}
        command = commands.add_parser(name, epilog=f"example:\n  {prog} {example}", **help_of)
        command.set_defaults(run=run)
        if name != "svg":
            add_files(command, name)
        add_answers(command, name)
    add_options(commands.choices)
    about = f"{run_program.__doc__}: docs/PROGRAM.md has its grammar."
    commands.add_parser("run", help=run_program.__doc__, description=about).set_defaults(run=run_program)
    add_play(commands)
    return parser.parse_args(with_keep(sys.argv[1:] if words is None else words))


@contextmanager
def few_collections() -> Iterator[None]:
    """Circles of objects are looked for seldom: among all objects of a large file that takes a third of the time."""
    before = gc.get_threshold()
    gc.set_threshold(ALLOCATED, *before[1:])
    try:
        yield
    finally:
        gc.set_threshold(*before)


def answered(given: argparse.Namespace) -> int:
    """Runs a command within its limit of memory, and gives its status. Where that refuses memory, the fault says so."""
    size = getattr(given, "memory", None)
    try:
        with limited(size), warnings_as_lines(), few_collections():
            return int(given.run(given) or 0)
    except (MemoryError, ImportError, OSError, PolyoverError) as fault:
        if size is None or not is_of_memory(fault):
            raise
        start = f"{told(fault)}: " if str(fault) and not isinstance(fault, MemoryError) else ""
        raise OutOfMemory(f"{start}the command may take {size >> 20} MiB of memory (--memory)") from None


def main(words: Sequence[str] | None = None) -> int:
    """Runs a command. Returns 1 where it does not answer, or the status of the program.

    Where its words are bad argparse ends it, with 2; Ctrl-C ends it as any program.
    """
    try:
        given = parsed(words)
        if words is None and given.run not in (run_program, run_play):
            end_at_once()
        if [getattr(given, name, None) for name in ("subject", "other")] == [STANDARD] * 2:
            say("standard input can't be two files")
            return 1
        return answered(given)
    except KeyboardInterrupt:
        return end_by_interrupt()
    except (PolyoverError, OSError) as fault:
        say(fault)
        return 1
    except MemoryError:
        say("no memory")
        return 1


if __name__ == "__main__":
    sys.exit(main())
