"""What is said of work that takes long, and the file that its faults name."""

from __future__ import annotations

import sys
from contextlib import contextmanager
from importlib import import_module
from threading import Timer
from typing import Any, Callable, Iterator

from . import streams
from .errors import BadInput, NotSettled, OutOfMemory, TooManyEdges

# (seconds)
LONG = 1.0
NAMED = (BadInput, NotSettled, OutOfMemory, TooManyEdges)


def bar_of(what: str, count: int) -> Any:
    """A bar of tqdm over as many steps, where that is installed and standard error is a terminal."""
    if count < 2 or sys.stderr is None or not sys.stderr.isatty():
        return None
    try:
        bars = import_module("tqdm")
    except ImportError:
        return None
    return bars.tqdm(total=count, desc=f"polyover: {what}", delay=LONG, leave=False, dynamic_ncols=True)


@contextmanager
def long_work(what: str, count: int = 0, is_quiet: bool = False) -> Iterator[Callable[[], Any]]:
    """Tells of work where it takes longer than a second, unless that is not wanted: by a bar, or else by a line on
    standard error. Gives what is called after each of its steps."""
    bar = None if is_quiet else bar_of(what, count)
    timer = Timer(LONG, lambda: streams.say(f"polyover: {what} .."))
    if bar is None and not is_quiet:
        try:
            timer.start()
        except RuntimeError:
            # (there is no memory for a thread)
            pass
    try:
        yield (lambda: None) if bar is None else bar.update
    finally:
        timer.cancel()
        if bar is not None:
            bar.close()


@contextmanager
def faults_of(*sources: str, place: object = "") -> Iterator[None]:
    """Each fault names the files, and the place of a feature where that is given, unless it names one of the files
    already."""
    start = " and ".join(sources) + (f": {place}" if place else "")
    try:
        yield
    except NAMED as fault:
        if not str(fault).startswith(sources):
            fault.args = (f"{start}: {fault}",)
        raise
    except MemoryError:
        raise OutOfMemory(f"{start}: no memory") from None
