"""Why a line of an input of the program is bad: the program names the line, and this says what is wrong in it."""

from __future__ import annotations

from typing import Sequence

from .commands import COMMANDS, KINDS, figures_in, is_command, is_figure, plain
from .program import BadLine
from .text import FILLS, LIMIT, RULES

AREAS = 2**127 - 1
OPTIONS = {"overlay": ("ogc", "keep", "clockwise", "min"), "clip": ("invert", "boundary")}
OPTIONS["hierarchy"] = OPTIONS["overlay"]
RULED = ("overlay", "hierarchy")
UNFILLED = ("contains", "locate")


class BadLineBecause(BadLine):
    """A line of the text is bad, and why."""

    def __init__(self, line: int, reason: str) -> None:
        super().__init__(line)
        self.args = (f"line {line}: {reason}",)


def is_number(word: str) -> bool:
    """Whether a word is a whole number of the grammar."""
    return word.removeprefix("-").isdecimal() and word.isascii()


def shown(word: str) -> str:
    """A word in a message, not too long."""
    return repr(word if len(word) <= 40 else f"{word[:38]}..")


def named(what: str, word: str | None, words: Sequence[str]) -> str | None:
    """That a word is none of those that it may be."""
    if word in words:
        return None
    near = next((each for each in words if word and each.lower() == word.lower()), None)
    if near:
        return f"{what} is {near}, not {word}"
    given = "missing" if word is None else f"not {shown(word)}"
    return f"{what} is one of {', '.join(words)}: {given}"


def of_numbers(words: Sequence[str]) -> str | None:
    """What is wrong in the coordinates of a line."""
    for word in words:
        if not is_number(word):
            return f"{shown(word)} is no whole number"
        if abs(int(word[:30])) > LIMIT:
            return f"{shown(word)} is out of range: at most {LIMIT} from 0"
    return f"{len(words)} numbers: x and y take two for each point" if len(words) % 2 else None


def of_figure(kind: str, words: Sequence[str]) -> str | None:
    """What is wrong in a line of a contour, a path or a point."""
    wrong = of_numbers(words)
    if wrong is None and kind == "point" and len(words) != 2:
        return f"{len(words)} numbers: a point has two"
    return wrong


def of_options(allowed: Sequence[str], words: Sequence[str]) -> str | None:
    """What is wrong in the options of a command."""
    left, seen = list(words), set()
    while left:
        word = left.pop(0)
        if word not in allowed:
            return named("an option", word, allowed) if allowed else f"{shown(word)}: no word is left for it"
        if word in seen:
            return f"the option {word} comes twice"
        seen.add(word)
        if word == "min" and (not left or not is_number(left[0]) or not 0 <= int(left.pop(0)[:60]) <= AREAS):
            return f"min takes a whole number from 0 to {AREAS}"
    return None


def of_command(words: Sequence[str]) -> str:
    """What is wrong in the line of a command."""
    name = words[0] if words else None
    wrong = named("the command", name, list(COMMANDS))
    if wrong or name is None:
        return str(wrong)
    left = list(words[1:])
    parts = {"RULE": RULES} if name in RULED else {}
    for what, allowed in {**parts, "FILL": FILLS}.items() if name not in UNFILLED else ():
        wrong = named(what, left.pop(0) if left else None, list(allowed.values()))
        if wrong:
            return wrong
    if name == "tiles":
        if len(left) != 2 or not all(map(is_number, left)):
            return "tiles takes two whole numbers, W and H"
        return "the grid does not fit: cells at least 1 wide and high, at most 1,000 lines in a direction"
    told = "a contour is not resolved" if name in UNFILLED else "bad input"
    return of_options(OPTIONS.get(name, ()), left) or told


def reason_of(text: str, number: int) -> str:
    """What is wrong in the line of an input that is bad, which has this number."""
    lines = text.replace("\r\n", "\n").split("\n")
    before = list(map(plain, lines[: number - 1]))
    line = plain(lines[number - 1]) if number <= len(lines) else ""
    if any(map(is_command, before)):
        return "it stands behind the command"
    if not line:
        return "no line has a command, as run overlay Union EvenOdd"
    kind, *words = line.split(" ")
    if kind == "run":
        return of_command(words)
    wrong = named("the first word", kind, (*KINDS, "run"))
    if wrong or is_figure(line):
        return wrong or "two steps of the contour share a point that is no end of both"
    return of_figure(kind, words) or "bad input"


def checked(text: str) -> None:
    """That an input can be read; a bad line is named with what is wrong in it."""
    try:
        figures_in(text)
    except BadLine as bad:
        raise BadLineBecause(bad.line, reason_of(text, bad.line)) from None
