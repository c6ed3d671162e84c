"""What the format of an answer does not hold: it is refused by name, or, where that is wanted, left out and told."""

from __future__ import annotations

from typing import Any

from .content import File
from .errors import BadInput
from .formats import PLAIN, SEQUENCES, Format
from .streams import OUTPUT
from .systems import DEGREES, number_in, words_for
from .told import Told, counted

NUMBERS = "[number of a feature (fid) is|numbers of features (fid) are]"
# members of a feature that are no properties
OWN = ("type", "geometry", "properties")


class Holding:
    """An answer in a format; `told` counts what is left out of it."""

    def __init__(self, form: Format, target: str | None, is_dropping: bool) -> None:
        self.form, self.is_dropping, self.has_numbers = form, is_dropping, False
        self.told = Told(target or OUTPUT)

    def leave_out(self, what: str, place: object = "the collection") -> None:
        """Refuses what is not held, or counts it."""
        if not self.is_dropping:
            start = f"{self.told.source}: {self.form.name} does not hold {what}"
            raise BadInput(f"{start} ({place}); --drop leaves it out, with a warning")
        self.told.add((f"{what}: left out once", f"{what}: left out # times"), place)

    def collection(self, file: File) -> int:
        """Leaves out what is not held of a collection. Returns the number of its system, where the format has numbers
        and one has to be told, or 0."""
        self.has_numbers = file.is_table
        for name in [*(name for name in file.members if name != "crs"), *["bbox"] * file.has_box]:
            self.leave_out(f"the member {name!r}")
        if file.system in DEGREES or file.system is None and "crs" not in file.members:
            return 0
        number = number_in(file.system) if self.form in PLAIN else None
        if number is None:
            self.leave_out(words_for(file.system))
        return number or 0

    def is_feature(self, number: int, feature: dict[str, Any]) -> bool:
        """Leaves out what is not held of a feature of the answer, which has a number; says whether any of it stays."""
        if self.form in SEQUENCES:
            return True
        place = f"feature {number} of the answer"
        for name in feature.get("properties") or ():
            self.leave_out(f"the property {name!r}", place)
        for name in feature:
            if name == "id" and self.has_numbers:
                self.told.add(counted(f"# {NUMBERS} left out"), place)
            elif name not in OWN:
                self.leave_out(f"the member {name!r}", place)
        if feature["geometry"] is None:
            self.leave_out("a feature without a geometry", place)
        return feature["geometry"] is not None
