"""The program's grammar on standard input, with the program's words and statuses: `polyover run`."""

from .errors import BadInput, NotResolved, NotSettled, OutOfMemory, PolyoverError, TooManyEdges
from .inputs import told_of
from .program import BadLine
from .streams import read_all, say, write_all

REFUSED = {OutOfMemory: "E1", NotSettled: "E2", TooManyEdges: "E3"}


def line_of(text: str, fault: PolyoverError) -> int:
    """The number of the line that a fault tells of: of a subject that is not resolved its own, else the command's."""
    if isinstance(fault, BadLine):
        return fault.line
    kinds = [line.split()[:1] for line in text.split("\n")]
    wanted = ["subject"] if isinstance(fault, NotResolved) else ["run"]
    places = [number for number, kind in enumerate(kinds, 1) if kind == wanted]
    return places[fault.contour - 1 if isinstance(fault, NotResolved) else 0]


def ending(fault: PolyoverError, text: str) -> "tuple[int, str]":
    """The status and the words of the program for a fault."""
    if type(fault) in REFUSED:
        return 1, f"refused {REFUSED[type(fault)]}"
    if isinstance(fault, (BadInput, NotResolved)):
        return 2, f"line {line_of(text, fault)}: bad input"
    raise fault


def run() -> int:
    """Answers the input on standard input, as docs/PROGRAM.md says; gives the status."""
    try:
        # (a good input is ASCII; read so, each other byte makes its line a bad one)
        text = read_all().decode("latin-1")
        try:
            told = told_of(text)
        except PolyoverError as fault:
            status, words = ending(fault, text)
            say(words)
            return status
        write_all(told)
    except OSError:
        say("io failed")
        return 3
    return 0
