"""Ctrl-C: where it ends a command at once, and where files are to be left whole first."""

from __future__ import annotations

import os
import signal
import threading
from contextlib import contextmanager
from typing import Iterator

SIGNALS = {signal.SIGINT}


def is_ours() -> bool:
    """Whether this thread is asked by Ctrl-C, and it is not ignored."""
    is_main = threading.current_thread() is threading.main_thread()
    return is_main and signal.getsignal(signal.SIGINT) in (signal.default_int_handler, signal.SIG_DFL)


def end_at_once() -> None:
    """From now on Ctrl-C ends the process at once, in the midst of a call of the library too."""
    if is_ours():
        signal.signal(signal.SIGINT, signal.SIG_DFL)


def end_by_interrupt() -> int:
    """Ends as Ctrl-C ends a program that does not know of it, so that a shell ends its loop too; or gives the status
    that stands for that."""
    signal.signal(signal.SIGINT, signal.SIG_DFL)
    os.kill(os.getpid(), signal.SIGINT)
    return 128 + signal.SIGINT


@contextmanager
def held() -> Iterator[None]:
    """Ctrl-C waits, but where it is let in: there it is a KeyboardInterrupt, so that what has to be undone can be."""
    if not is_ours():
        yield
        return
    before = signal.pthread_sigmask(signal.SIG_BLOCK, SIGNALS)
    handler = signal.signal(signal.SIGINT, signal.default_int_handler)
    try:
        yield
    finally:
        signal.signal(signal.SIGINT, handler)
        signal.pthread_sigmask(signal.SIG_SETMASK, before)


@contextmanager
def let_in() -> Iterator[None]:
    """Ctrl-C that has waited, or comes here, is a KeyboardInterrupt."""
    if not is_ours():
        yield
        return
    before = signal.pthread_sigmask(signal.SIG_UNBLOCK, SIGNALS)
    try:
        yield
    finally:
        signal.pthread_sigmask(signal.SIG_SETMASK, before)
