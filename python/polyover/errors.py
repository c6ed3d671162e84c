"""Why a call does not answer."""


class PolyoverError(Exception):
    """A call does not answer; each of the others is one."""


class OutOfMemory(PolyoverError):
    """Memory was refused."""


class NotSettled(PolyoverError):
    """After 64 rounds of splitting edges still meet in points that are no ends. Snap rounding splits them."""


class TooManyEdges(PolyoverError):
    """The edges, as given or in a round of splitting, count 2^31 or more."""


class NotResolved(PolyoverError):
    """A contour of a shape in which points are located meets itself; `contour` is its number, from 1."""

    def __init__(self, contour: int) -> None:
        super().__init__(f"contour {contour} is not resolved: two of its steps share a point that is no end of both")
        self.contour = contour


class BadInput(PolyoverError, ValueError):
    """What was given can't be asked: a coordinate that is no whole number or out of range, an unknown rule."""


class BadType(BadInput, TypeError):
    """What was given is of a type that has no order of its members, or no numbers, as a set or a text."""


class ProgramMissing(PolyoverError):
    """There is no program to ask."""


class LibraryMissing(PolyoverError):
    """There is no library where one is named, or it can't be loaded."""


class PolyoverWarning(UserWarning):
    """What a call answers differs from what was given in a way that it says."""
