"""What says that the library is proved, or that it is not: `built`, `polyover --version`, and what a wheel says."""

import contextlib
import io
import re
import unittest
from pathlib import Path
from unittest import mock

import polyover
from polyover import library, play
from polyover.__main__ import main

from .inputs import ROOT
from .there import ask_library_alone, ask_program_alone, asked_alone, library_path, older_library
from .there import with_library, with_program

WORDS = {"proved": "a proved library", "unproved": "an unproved library"}
# what a module or a page may not say of a library of either kind
TOO_MUCH = re.compile(r"(?:by|over) (?:a|the) proved (?:library|program)|calls are proved|answers of .* are proved")


def version():
    """What `polyover --version` writes."""
    said = io.StringIO()
    with contextlib.redirect_stdout(said), contextlib.suppress(SystemExit):
        main(["--version"])
    return said.getvalue()


def head():
    """What stands at the head of the assembly that the library was built of."""
    file = Path(library_path()).with_name("polyover.s")
    with contextlib.suppress(OSError), open(file, encoding="utf-8") as lines:
        return lines.readline()
    return None


class Built(unittest.TestCase):
    """A proved library, and one without a proof."""

    @with_library
    def test_as_at_the_head_of_the_assembly(self):
        ask_library_alone(self)
        told = head()
        if told is None:
            self.skipTest("no polyover.s beside the library")
        wanted = "proved" if "of the proved module" in told else "unproved"
        self.assertEqual(polyover.built(), wanted)
        self.assertEqual(version(), f"polyover {polyover.__version__} over {WORDS[wanted]}\n")

    @with_library
    def test_both_kinds(self):
        ask_library_alone(self)
        for number, told in enumerate(("unproved", "proved")):
            with mock.patch.object(library.library().functions, "polyover_built", lambda number=number: number):
                self.assertEqual(polyover.built(), told)
                self.assertEqual(version(), f"polyover {polyover.__version__} over {WORDS[told]}\n")

    @with_library
    def test_an_older_library(self):
        ask_library_alone(self)
        with older_library("polyover_built"):
            self.assertEqual(polyover.built(), "unknown")
            self.assertIn("over a library that does not tell whether it is proved\n", version())

    @with_program
    def test_the_program(self):
        ask_program_alone(self)
        self.assertEqual(polyover.built(), "unknown")
        self.assertRegex(version(), f"^polyover {polyover.__version__} over the program /.*polyover\n$")

    def test_nothing_to_ask(self):
        asked_alone(self, POLYOVER_PROGRAM="/nowhere/polyover")
        self.assertIn("over nothing: no program at /nowhere/polyover", version())
        asked_alone(self, POLYOVER_LIBRARY="/nowhere/libpolyover.so")
        self.assertIn("over nothing: /nowhere/libpolyover.so can't be loaded", version())

    def test_a_wheel_without_the_page(self):
        nowhere, said = Path("/nowhere"), io.StringIO()
        with mock.patch.object(play, "PLACES", (play.Page(nowhere, nowhere),)), contextlib.redirect_stderr(said):
            self.assertEqual(main(["play", "--out", "page.html"]), 1)
        self.assertRegex(said.getvalue(), "^polyover: this module holds no page: a clone has it, and a wheel that is")

    def test_nothing_says_more(self):
        page = (ROOT / "docs" / "PYTHON.md").read_text()
        about = re.search(r'^description = "(.*)"$', (ROOT / "pyproject.toml").read_text(), re.M)[1]
        modules = [file.read_text() for file in Path(polyover.__file__).parent.glob("*.py")]
        for text in (page, about, *modules):
            self.assertIsNone(TOO_MUCH.search(text))
        self.assertNotIn("proved", about)


if __name__ == "__main__":
    unittest.main()
