"""What files have: their features, and what their collections have beside these."""

from __future__ import annotations

from dataclasses import dataclass, field
from typing import Any, Iterable, NamedTuple

from .parts import Feature
from .told import Told


class Content(NamedTuple):
    """What a file has: features as GeoJSON has them, each with its line, or 0 where it has none, the members of their
    collection, and the code of their system of coordinates, where it is known. A table has columns, by name and kind,
    and a system without a code as its text."""

    things: Iterable[tuple[int, Any]]
    members: dict[str, Any]
    system: str | None
    has_box: bool = False
    columns: dict[str, str] | None = None


@dataclass
class File:
    """What a file has: its features, of one kind, and the members of its collection. The features of a sequence may
    come as they are read, once: `count` is 0 then. `told` counts what is to be said of features that are read one by
    one. `system` is the code of the system of coordinates, where it is known; that of a table without a code is its
    text. `columns` are the names and kinds of the columns of a table."""

    name: str
    features: Iterable[Feature]
    members: dict[str, Any]
    has_box: bool
    told: Told
    system: str | None = None
    count: int = 0
    columns: dict[str, str] = field(default_factory=dict)
    is_table: bool = False

    @property
    def counted(self) -> str:
        """How many features it has, in words."""
        return f"{self.count} features" if self.count else "features"
