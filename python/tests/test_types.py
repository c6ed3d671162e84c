"""The types of the module, by mypy; skipped where that is not installed."""

import os
import shutil
import subprocess
import tempfile
import unittest
from pathlib import Path

PACKAGE = Path(__file__).resolve().parents[1] / "polyover"
MYPY = shutil.which("mypy")


class Types(unittest.TestCase):
    """What mypy says."""

    @unittest.skipIf(MYPY is None, "no mypy (Debian's mypy)")
    def test_no_fault(self):
        words = [MYPY, "--strict", "--cache-dir", "/dev/null", str(PACKAGE)]
        ran = subprocess.run(words, capture_output=True, text=True, check=False)
        self.assertEqual(ran.returncode, 0, ran.stdout)

    @unittest.skipIf(MYPY is None, "no mypy (Debian's mypy)")
    def test_words_of_the_calls(self):
        bad = [
            'polyover.overlay([], [], "nope")',
            'polyover.overlay([], [], "union", "nope")',
            'polyover.overlay([], solver="nope")',
            'polyover.union([], [], "nope")',
            'polyover.intersects([], [], "nope")',
            'polyover.clip([], [], "nope")',
            'polyover.Prepared([], "nope")',
            'polyover.Arrangement([], [], "nope")',
            'polyover.Arrangement([]).overlay("nope")',
            'polyover.Scaled(1).overlay([], [], "nope")',
            'polyover.Scaled(1).slice([], [], "nope")',
            'polyover.Scaled(1).tiles([], 1, 1, solver="nope")',
            'polyover.Scaled(1).union_all([], "nope")',
        ]
        good = ['polyover.overlay([], [], "union", "evenodd", solver="rounds")', 'polyover.Scaled(1).touches([], [])',
                'polyover.Scaled(1).relate([], [], "positive")["within"]', 'polyover.union_all([[]], "negative")']
        with tempfile.TemporaryDirectory() as name:
            file = os.path.join(name, "words.py")
            with open(file, "w", encoding="utf-8") as text:
                text.write("import polyover\n" + "".join(f"{line}\n" for line in [*bad, *good]))
            words = [MYPY, "--strict", "--cache-dir", "/dev/null", file]
            how = {"env": {**os.environ, "MYPYPATH": str(PACKAGE.parent)}, "cwd": name}
            said = subprocess.run(words, capture_output=True, text=True, check=False, **how).stdout
        faults = [int(line.split(":")[1]) for line in said.splitlines() if ": error:" in line]
        self.assertEqual(faults, list(range(2, 2 + len(bad))), said)


if __name__ == "__main__":
    unittest.main()
