"""Sequences of GeoJSON (GeoJSONSeq, RFC 8142): a feature a line, or texts that begin with a record separator."""

from __future__ import annotations

import json
from typing import Any, Iterable, Iterator

from .errors import BadInput

RECORD = "\x1e"


def once(pairs: list[tuple[str, Any]]) -> dict[str, Any]:
    """An object of JSON; a member that comes twice is a fault."""
    found = dict(pairs)
    if len(found) != len(pairs):
        names = [name for name, _ in pairs]
        twice = next(name for name in names if names.count(name) > 1)
        raise ValueError(f"the member {twice!r} comes twice in one object")
    return found


def texts_in(lines: Iterable[tuple[int, str]]) -> Iterator[tuple[int, str]]:
    """The texts of a sequence, each with the number of its first line. Where a line begins with a record separator,
    these part texts from there on; else each line with a word is a text."""
    is_parted, began, held = False, 0, ""
    for number, line in lines:
        is_parted = is_parted or line.startswith(RECORD)
        if not is_parted:
            if line.strip():
                yield number, line
            continue
        before, *others = line.split(RECORD)
        held += before
        for each in others:
            if held.strip():
                yield began, held
            began, held = number, each
    if held.strip():
        yield began, held


def value_of(began: int, text: str) -> Any:
    """What a text of JSON has that begins in a line; BadInput names the line of a fault."""
    try:
        return json.loads(text.rstrip(), object_pairs_hook=once)
    except json.JSONDecodeError as fault:
        raise BadInput(f"line {began + fault.lineno - 1}: {fault.msg} in column {fault.colno}") from None
    except ValueError as fault:
        raise BadInput(f"line {began}: {fault}") from None
    except RecursionError:
        raise BadInput(f"line {began}: too many lists or objects in one another") from None


def values_in(lines: Iterable[tuple[int, str]]) -> Iterator[tuple[int, Any]]:
    """What a sequence has, each with its line, as they come."""
    return ((began, value_of(began, text)) for began, text in texts_in(lines))
