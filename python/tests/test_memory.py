"""Limits on memory: a command that needs more is refused in words, and leaves no file."""

import json
import resource
import unittest

from polyover.__main__ import main
from polyover.memory import size_in

from .features import collection, feature, in_folder, square
from .test_streams import begun, ended
from .there import HAS_LIBRARY, HAS_PROGRAM

SAID = "the command may take {} MiB of memory (--memory)\n"


class Sizes(unittest.TestCase):
    """Words for sizes."""

    def test_words(self):
        for word, size in (("67108864", 2**26), ("64M", 2**26), ("64m", 2**26), ("65536K", 2**26), ("3G", 3 * 2**30)):
            self.assertEqual(size_in(word), size)
        for word in ("", "M", "63M", "-64M", "64 M", "1.5G", "64MB", "9" * 20, "x", "999999999999999G"):
            with self.subTest(word), self.assertRaises(ValueError):
                size_in(word)


@unittest.skipUnless(HAS_LIBRARY or HAS_PROGRAM, "no library for C (make -C c), and no program")
class Limited(unittest.TestCase):
    """Commands with a limit."""

    def setUp(self):
        self.folder = in_folder(self)
        self.small, self.large = self.folder / "small.geojson", self.folder / "large.geojson"
        self.small.write_text(json.dumps(collection(feature("Polygon", [square(0, 0, 2, 2)]))))
        # (some 7 MB of text, which take more than 100 MB once they are read)
        ring = [[at, at % 2 * 0.25] for at in range(1000)] + [[0, 4]]
        ring.append(ring[0])
        self.large.write_text(json.dumps(collection(*[feature("Polygon", [ring])] * 500)))
        self.out = self.folder / "out.geojson"

    def ran(self, command, *words):
        """The status of a command, and what it says."""
        return ended(begun([command, *words, "--out", self.out, "--quiet"]))

    def test_enough(self):
        for command in (["simplify", self.small], ["overlay", self.small, self.small], ["tiles", self.small, 1, 1]):
            self.assertEqual(self.ran(*command, "--memory", "500M"), (0, ""))
            self.assertTrue(self.out.exists())

    def test_too_little(self):
        for command in (["simplify", self.large], ["overlay", self.small, self.large], ["tiles", self.large, 1, 1],
                        ["overlay", self.large, self.small, "--keep", "both"]):
            status, said = self.ran(*command, "--memory", "100M")
            self.assertEqual((status, said.count("\n"), self.out.exists()), (1, 1, False), said)
            self.assertTrue(said.startswith("polyover: ") and said.endswith(SAID.format(100)), said)

    def test_the_least(self):
        status, said = self.ran("overlay", self.large, self.large, "--memory", "64M")
        self.assertEqual((status, self.out.exists()), (1, False))
        self.assertTrue(said.endswith(SAID.format(64)), said)

    def test_lines_that_come_one_by_one_take_little(self):
        lines = self.folder / "large.geojsonl"
        features = json.loads(self.large.read_text())["features"]
        lines.write_text("".join(f"{json.dumps(each)}\n" for each in features))
        self.out = self.folder / "out.geojsonl"
        self.assertEqual(self.ran("simplify", lines, "--memory", "100M"), (0, ""))
        self.assertEqual(len(self.out.read_text().splitlines()), 500)

    def test_the_limit_ends_with_the_command(self):
        before = resource.getrlimit(resource.RLIMIT_AS)
        words = ["relate", str(self.small), str(self.small), "--out", str(self.out), "--memory", "4G"]
        self.assertEqual(main(words), 0)
        self.assertEqual(resource.getrlimit(resource.RLIMIT_AS), before)


if __name__ == "__main__":
    unittest.main()
