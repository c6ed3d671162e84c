"""Standard input and output, which are read and written to their end or fail, and words on standard error."""

from __future__ import annotations

import errno
import os
import sys
from contextlib import contextmanager
from typing import Any, Iterator, TextIO

INPUT, OUTPUT = "standard input", "standard output"
PART = 1 << 20


@contextmanager
def named(file: str) -> Iterator[None]:
    """A fault of reading or writing names the file."""
    try:
        yield
    except OSError as fault:
        raise OSError(fault.errno, fault.strerror or str(fault), file) from None


def closed() -> OSError:
    """That a stream is closed."""
    return OSError(errno.EBADF, os.strerror(errno.EBADF))


def read_all() -> bytes:
    """What standard input holds."""
    with named(INPUT):
        if sys.stdin is None:
            raise closed()
        reader: Any = sys.stdin.buffer
        parts: list[bytes] = []
        # (a read of all at once looks at no Ctrl-C that comes between two of its parts)
        while part := reader.read1(PART):
            parts.append(part)
    return b"".join(parts)


def write_to_end(stream: TextIO | None, text: str) -> None:
    """Writes a text to a stream, to its end.

    Where that has no buffer, as by PYTHONUNBUFFERED, one write may take a part alone; and what a buffer could not get
    rid of is tried again when Python ends. So this writes to the file itself, as long as it takes."""
    if stream is None:
        raise closed()
    stream.flush()
    try:
        handle = stream.fileno()
    except OSError:
        # (a stream in memory)
        stream.write(text)
        return
    left = memoryview(text.encode())
    while left:
        left = left[os.write(handle, left) :]


def write_all(text: str) -> None:
    """Writes a text to standard output, to its end."""
    with named(OUTPUT):
        write_to_end(sys.stdout, text)


def say(text: object) -> None:
    """A line on standard error; where that takes none, nothing."""
    try:
        write_to_end(sys.stderr, f"{text}\n")
    except (OSError, ValueError):
        pass


def told(fault: object) -> str:
    """A fault in words: of a file its name, and what went wrong."""
    if isinstance(fault, OSError) and fault.filename is not None:
        return f"{fault.filename}: {fault.strerror}"
    return str(fault)
