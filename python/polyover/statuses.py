"""How calls of the library for C end, and what they raise then."""

from __future__ import annotations

from enum import IntEnum

from .errors import BadInput, NotSettled, OutOfMemory, PolyoverError, TooManyEdges


class Status(IntEnum):
    """How a call ends."""

    OK = 0
    MEMORY = 1
    BAD_ENDS = 2
    OUT_OF_RANGE = 3
    NOT_RESOLVED = 4
    BAD_RULE = 5
    BAD_FILL = 6
    BAD_OPTION = 7
    NOT_SETTLED = 8
    TOO_MANY_EDGES = 9
    TOO_SMALL = 10


FAULTS = {Status.MEMORY: OutOfMemory, Status.NOT_SETTLED: NotSettled, Status.TOO_MANY_EDGES: TooManyEdges}
OUT_OF_RANGE = "a coordinate is out of range"
# (of these no other comes than that: all that they tell of is tested before a call)
WRONG = {Status.BAD_ENDS, Status.OUT_OF_RANGE, Status.BAD_RULE, Status.BAD_FILL, Status.BAD_OPTION}


def check(status: int) -> None:
    """Raises what a status stands for, if it is not OK."""
    if status == 0:
        return
    if status not in set(Status):
        raise PolyoverError(f"the library answers the status {status}")
    known = Status(status)
    if known in FAULTS:
        raise FAULTS[known](FAULTS[known].__doc__)
    if known in WRONG:
        raise BadInput(OUT_OF_RANGE if known == Status.OUT_OF_RANGE else f"the library answers {known.name}")
    raise PolyoverError(f"the library answers the status {known}")
