"""What is there to be asked: the library, the program, or both."""

import os
from unittest import mock, skipUnless

from polyover import PolyoverError, library
from polyover.program import VARIABLE, program


def is_there(found):
    """Whether the library, or the program, is there."""
    try:
        return found() is not None
    except PolyoverError:
        return False


HAS_LIBRARY, HAS_PROGRAM = is_there(library.library), is_there(program)
with_library = skipUnless(HAS_LIBRARY, "no library for C (make -C c)")
with_program = skipUnless(HAS_PROGRAM, "no program (README.md, \"From source\")")
with_both = skipUnless(HAS_LIBRARY and HAS_PROGRAM, "no library for C (make -C c), or no program beside it")


def asked_alone(test, **named):
    """For one test these variables alone name what is asked."""
    chosen = mock.patch.dict(os.environ, {library.VARIABLE: "", VARIABLE: "", **named})
    chosen.start()
    test.addCleanup(chosen.stop)


def ask_program_alone(test):
    """For one test there is no library."""
    asked_alone(test, POLYOVER_PROGRAM=str(program()))


def library_path():
    """Where the library is."""
    return os.path.abspath(os.environ.get(library.VARIABLE) or library.BUILT)


def ask_library_alone(test):
    """For one test there is no program."""
    asked_alone(test, POLYOVER_LIBRARY=library_path(), POLYOVER_PROGRAM="/nowhere/polyover")


def older_library(*missing):
    """For a block the library is an older one, which lacks these functions."""
    found = library.library()
    return mock.patch.object(found, "names", found.names - set(missing))
