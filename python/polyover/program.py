"""The program polyover: it is asked by a text, and answers by one."""

from __future__ import annotations

import os
import subprocess
from pathlib import Path

from .errors import BadInput, NotSettled, OutOfMemory, PolyoverError, ProgramMissing, TooManyEdges

VARIABLE = "POLYOVER_PROGRAM"
BUILT = Path(__file__).resolve().parents[2] / "crates" / "polyover" / "out" / "polyover"
# (what the program, which splits in rounds alone, says more where they do not settle)
LIBRARY = "The program has no snap rounding: the library has, of a release's wheel, of scripts/build or of make -C c."
REFUSALS = {"E1": OutOfMemory, "E2": NotSettled, "E3": TooManyEdges}


class BadLine(BadInput):
    """A line of the text is bad; `line` is its number, from 1."""

    def __init__(self, line: int) -> None:
        super().__init__(f"line {line}: bad input")
        self.line = line


def program() -> Path:
    """The path of the program: the one that POLYOVER_PROGRAM names, or else the one that `rt run` built."""
    path = Path(os.environ.get(VARIABLE) or BUILT).absolute()
    if not path.is_file():
        raise ProgramMissing(f"no program at {path}: build it (README.md, \"From source\"), or name one by {VARIABLE}")
    return path


def answer(text: str) -> str:
    """What the program answers to an input."""
    ran = subprocess.run([str(program())], input=text.encode(), capture_output=True, check=False)
    said = ran.stderr.decode().split()
    if ran.returncode == 0:
        return ran.stdout.decode()
    if ran.returncode == 1 and said[:1] == ["refused"]:
        refusal = REFUSALS[said[1]]
        raise refusal(f"{refusal.__doc__} {LIBRARY}" if refusal is NotSettled else refusal.__doc__)
    if ran.returncode == 2 and said[:1] == ["line"]:
        raise BadLine(int(said[1].rstrip(":")))
    raise PolyoverError(f"{program()}: status {ran.returncode} {' '.join(said)}")
