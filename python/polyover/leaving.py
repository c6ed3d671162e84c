"""Files of answers out: beside and renamed, so that none is left in part."""

from __future__ import annotations

import os
import shutil
import stat
from contextlib import contextmanager
from pathlib import Path
from tempfile import TemporaryFile
from typing import Iterable, Iterator, Sequence

from .errors import BadInput
from .interrupts import held, let_in
from .streams import PART, named, write_all

# parts of a text, or a file that is made already, and where they go
Answer = tuple["Iterable[str] | Path", "str | None"]


def is_plain(target: str) -> bool:
    """Whether a file may be put in the place of what is there: nothing, or a plain file."""
    try:
        return stat.S_ISREG(os.stat(target).st_mode)
    except FileNotFoundError:
        return True


def write_beside(parts: Iterable[str], target: str, made: list[tuple[str, str]]) -> None:
    """Writes the parts of a text to a new file beside the target, and notes both paths once the file is there."""
    path = os.path.join(os.path.dirname(target), f".{os.path.basename(target)[:100]}.{os.getpid()}.part")
    handle = os.open(path, os.O_WRONLY | os.O_CREAT | os.O_EXCL, 0o666)
    made.append((path, target))
    with open(handle, "w", encoding="utf-8") as file:
        with let_in():
            for part in parts:
                file.write(part)
    if os.path.exists(target):
        shutil.copymode(target, path)


def parted(text: str) -> Iterator[str]:
    """The parts of a text, between which Ctrl-C may come."""
    return (text[at : at + PART] for at in range(0, len(text), PART))


@contextmanager
def spooled(lines: Iterable[str], target: str) -> Iterator[Iterable[str]]:
    """Keeps lines, as they come, in a file without a name beside the target, and gives them once all have come."""
    with named(target):
        spool = TemporaryFile("w+", encoding="utf-8", newline="", dir=os.path.dirname(os.path.realpath(target)))
    with spool:
        for line in lines:
            with named(target):
                spool.write(line)
        with named(target):
            spool.seek(0)
        yield iter(lambda: spool.read(PART), "")


def leave_lines(lines: Iterable[str], target: str | None) -> None:
    """Leaves lines in a file, or, where none is named, writes each to standard output as it comes. So it is written to
    what is no plain file."""
    if target is None:
        for line in lines:
            write_all(line)
    elif is_plain(target):
        with spooled(lines, target) as parts:
            leave([(parts, target)])
    else:
        with named(target), open(target, "w", encoding="utf-8") as file:
            for line in lines:
                file.write(line)
                file.flush()


def leave(answers: Sequence[Answer]) -> None:
    """Leaves texts, each by its parts, in their files, or on standard output where none is named: all, or, where one
    fails or Ctrl-C comes, none.

    Each text is written beside its file first. What is no plain file, as a pipe, is written to as it is."""
    targets = [os.path.realpath(file) for _, file in answers if file]
    if len(set(targets)) < len(targets):
        raise BadInput(f"{targets[0]}: two answers can't go to one file")
    with held():
        leave_all(answers)


def leave_all(answers: Sequence[Answer]) -> None:
    """Leaves all texts, while Ctrl-C comes only where it is let in."""
    made: list[tuple[str, str]] = []
    direct: list[tuple[Iterable[str], str | None]] = []
    try:
        for parts, file in answers:
            if isinstance(parts, Path):
                if file and os.path.exists(file):
                    shutil.copymode(file, parts)
                made.append((str(parts), str(file)))
            elif file and is_plain(file):
                with named(file):
                    write_beside(parts, os.path.realpath(file), made)
            else:
                direct.append((parts, file))
        for parts, file in direct:
            with let_in():
                write_to("".join(parts), file)
        while made:
            with named(made[0][1]):
                os.replace(*made[0])
            made.pop(0)
    finally:
        for path, _ in made:
            os.unlink(path)


def write_to(text: str, file: str | None) -> None:
    """Writes a text to standard output, or to what is no plain file."""
    if file:
        with named(file), open(file, "w", encoding="utf-8") as target:
            target.write(text)
    else:
        write_all(text)
