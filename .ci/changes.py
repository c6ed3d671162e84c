"""Edits of the tree, as files, for `.ci/edits` and `.ci/refused`."""

from dataclasses import dataclass, field
from pathlib import Path


@dataclass
class Change:
    """The first line's text, and of each file the texts that are exchanged in it."""

    path: Path
    head: str = ""
    pairs: list = field(default_factory=list)


def read_change(path, head):
    """The change of a file: a line `HEAD: TEXT`, lines `file: PATH`, and below each pairs of lines `old: TEXT` and
    `new: TEXT`. A fault in it is said by the exception's words."""
    change, file, old = Change(path), "", None
    for line in filter(str.strip, path.read_text().split("\n")):
        word, _, text = line.partition(":")
        text = text.removeprefix(" ")
        if word == head:
            change.head = text
        elif word == "file":
            file = text
        elif word == "old" and file:
            old = text
        elif word == "new" and old is not None:
            change.pairs.append((file, old, text))
            old = None
        else:
            raise ValueError(f"a line that is none of an edit's, or stands too early: {line}")
    if not change.head or not change.pairs or old is not None:
        raise ValueError(f"it has no line '{head}:', exchanges nothing, or ends with a line 'old:'")
    return change


def apply(change, root):
    """Exchanges the texts below the root; later pairs apply to texts that earlier ones have made."""
    for file, old, new in change.pairs:
        text = (root / file).read_text()
        if text.count(old) != 1 or old == new:
            raise ValueError(f"an 'old:' text is in {file} {text.count(old)} times, and not once, or nothing changes")
        (root / file).write_text(text.replace(old, new))
