"""The command `polyover run`: answers, words and statuses are the program's."""

import os
import subprocess
import sys
import unittest
from pathlib import Path

from .there import HAS_LIBRARY, HAS_PROGRAM

SQUARES = "subject 0 0 4 0 4 4 0 4\nclip 2 2 6 2 6 6 2 6\n"
NEEDLES = "subject 2 0 0 66 2 -66\nsubject 1 0 0 67 -1 0\n"
ZEROS, NINES = "0" * 5000, "9" * 5000
BOW = "subject 0 0 4 0 4 4 0 4\nsubject 0 0 4 4 4 0 0 4\npoint 1 1\n"
# (an input, and what comes of it: standard output, words on standard error, status)
ENDINGS = {
    f"{SQUARES}run overlay Intersect NonZero\n": ("shape\n2 4 2 2 4 2 4 4\n", "", 0),
    "subject 0 0 4 0 4 4 0 4\npoint 2 2\npoint 4 1\nrun locate\n": ("inside\nboundary\n", "", 0),
    f"{NEEDLES}run edges NonZero\n": ("", "refused E2\n", 1),
    f"{SQUARES}run overlay intersect NonZero\n": ("", "line 3: bad input\n", 2),
    SQUARES: ("", "line 3: bad input\n", 2),
    f"{BOW}run locate\n": ("", "line 2: bad input\n", 2),
    f"{SQUARES}\nrun tiles NonZero 0 1\n": ("", "line 4: bad input\n", 2),
    # (numbers of more digits than Python takes)
    f"subject {ZEROS}1 0 4 0 4 4 -{ZEROS} 4\nrun overlay Union EvenOdd\n": ("shape\n4 4 0 4 1 0 4 0\n", "", 0),
    f"subject 0 0 4 0 4 4 0 4\nrun overlay Union EvenOdd min {ZEROS}17\n": ("", "", 0),
    f"subject 0 0 4 0 4 4 0 {NINES}\nrun overlay Union EvenOdd\n": ("", "line 1: bad input\n", 2),
    f"{SQUARES}run overlay Union EvenOdd min {NINES}\n": ("", "line 3: bad input\n", 2),
    f"{SQUARES}run tiles NonZero 1 {NINES}\n": ("", "line 3: bad input\n", 2),
}


def ran(given, **how):
    """What comes of the command for an input."""
    env = {**os.environ, "PYTHONPATH": str(Path(__file__).resolve().parents[1])}
    return subprocess.run([sys.executable, "-m", "polyover", "run"], input=given, env=env, check=False, **how)


@unittest.skipUnless(HAS_LIBRARY or HAS_PROGRAM, "no library for C (make -C c), and no program")
class Running(unittest.TestCase):
    """Each way in which the program ends."""

    def test_endings(self):
        for given, wanted in ENDINGS.items():
            with self.subTest(given[:80]):
                each = ran(given, capture_output=True, text=True)
                self.assertEqual((each.stdout, each.stderr, each.returncode), wanted)

    def test_bytes_that_are_no_text(self):
        each = ran(b"subject 0 0 \xff 1\nrun edges NonZero\n", capture_output=True)
        self.assertEqual((each.stdout, each.stderr, each.returncode), (b"", b"line 1: bad input\n", 2))

    @unittest.skipUnless(os.path.exists("/dev/full"), "no /dev/full")
    def test_output_that_is_full(self):
        with open("/dev/full", "w", encoding="utf-8") as full:
            each = ran(f"{SQUARES}run edges NonZero\n", stdout=full, stderr=subprocess.PIPE, text=True)
        self.assertEqual((each.stderr, each.returncode), ("io failed\n", 3))


if __name__ == "__main__":
    unittest.main()
