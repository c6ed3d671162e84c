"""What a reading leaves out or takes in its own way: counted, and said once."""

from __future__ import annotations

import re
import warnings
from functools import lru_cache

from .errors import PolyoverWarning

CHOICE = re.compile(r"\[([^|\]]*)\|([^|\]]*)\]")
# what is said of one, and what of more, where the last sign # stands for their number
What = tuple[str, str]


@lru_cache(maxsize=64)
def counted(text: str) -> What:
    """What is said of one, and of more: of words as [is|are] the first, or the second."""
    return CHOICE.sub(r"\1", text).replace("#", "1"), CHOICE.sub(r"\2", text)


def said(what: What, count: int) -> str:
    """What is said of that many."""
    one, more = what
    return one if count == 1 else f"{count:,}".join(more.rsplit("#", 1))


class Told:
    """Counts of what is to be said, by what is said of it, each with the place of the first; `source` names a file."""

    def __init__(self, source: str = "") -> None:
        self.source = source
        self.counts: dict[What, int] = {}
        self.first: dict[What, str] = {}

    def add(self, what: What, place: object, count: int = 1) -> None:
        """Counts what there is at a place."""
        self.first.setdefault(what, str(place))
        self.counts[what] = self.counts.get(what, 0) + count

    def lines(self) -> list[str]:
        """What is to be said, a line each."""
        start = f"{self.source}: " if self.source else ""
        told = ((said(what, count), self.first[what]) for what, count in self.counts.items())
        return [f"{start}{words} (the first: {place})" for words, place in told]

    def say(self) -> None:
        """Says it by warnings, and begins anew."""
        lines = self.lines()
        self.counts.clear()
        self.first.clear()
        for line in lines:
            warnings.warn(line, PolyoverWarning, stacklevel=4)
