"""A limit on the memory of a command, as the system keeps it: of all addresses that a process takes."""

from __future__ import annotations

import errno
import re
import resource
from contextlib import contextmanager
from typing import Iterator

from .errors import LibraryMissing, OutOfMemory

SIZE = re.compile("([0-9]{1,15})([KMG]?)", re.IGNORECASE)
UNITS = {"": 1, "K": 1 << 10, "M": 1 << 20, "G": 1 << 30}
# (Python and the library take some 40 MiB where they ask nothing)
LEAST, MOST = 64 << 20, 1 << 62
# what the loader of libraries says
UNMAPPED = re.compile("allocate memory|map segment")


def size_in(word: str) -> int:
    """A number of bytes, with K, M or G behind it times 2^10, 2^20 or 2^30."""
    found = SIZE.fullmatch(word)
    size = int(found[1]) * UNITS[found[2].upper()] if found else 0
    if not LEAST <= size <= MOST:
        raise ValueError
    return size


size_in.__name__ = "size of memory, which is a number of bytes, or of K, M or G, from 64M on,"


@contextmanager
def limited(size: int | None) -> Iterator[None]:
    """Memory is refused beyond a size, where one is given."""
    if size is None:
        yield
        return
    before, most = resource.getrlimit(resource.RLIMIT_AS)
    limits = [size, *(each for each in (before, most) if each != resource.RLIM_INFINITY)]
    resource.setrlimit(resource.RLIMIT_AS, (min(limits), most))
    try:
        yield
    finally:
        resource.setrlimit(resource.RLIMIT_AS, (before, most))


def is_of_memory(fault: BaseException) -> bool:
    """Whether a fault is that memory was refused."""
    if isinstance(fault, OSError):
        return fault.errno == errno.ENOMEM
    if isinstance(fault, (LibraryMissing, ImportError)):
        return bool(UNMAPPED.search(str(fault)))
    return isinstance(fault, (MemoryError, OutOfMemory))
