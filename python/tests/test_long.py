"""Work that takes long: what is said of it, that Ctrl-C ends it within a second, and that its faults name the file."""

import io
import json
import os
import pty
import signal
import subprocess
import sys
import tempfile
import unittest
from contextlib import contextmanager
from pathlib import Path
from time import monotonic, sleep
from unittest import mock

import polyover
from polyover import calls, progress

from .features import collection, feature, ran, square
from .rows import UNSETTLED
from .test_streams import begun, ended
from .there import with_library

try:
    import tqdm
except ImportError:
    tqdm = None

COPIES = Path(__file__).resolve().parents[2] / "examples" / "copies.txt"
AREA = collection(feature("Polygon", [square(0, 0, 2, 2)]))
LINES = collection(*(feature("LineString", [[-1, y], [3, y]]) for y in (0.5, 1, 1.5)))
# (of 75 edges, which rounds do not settle: they take minutes)
SLOW = ["--solver", "rounds", "--digits", "0", "--fill", "nonzero"]


def closed(contour):
    """A contour as a ring of GeoJSON."""
    return [list(point) for point in [*contour, contour[0]]]


def copies():
    """The contours of an input that rounds do not settle, as a feature."""
    lines = [line.split()[1:] for line in COPIES.read_text().splitlines() if line.startswith("subject")]
    numbers = [list(map(int, line)) for line in lines]
    return collection(feature("MultiPolygon", [[closed(list(zip(its[0::2], its[1::2])))] for its in numbers]))


class Said(unittest.TestCase):
    """Lines, and a bar on a terminal."""

    def clipped(self, *words):
        """What a clip says that counts as long."""
        with mock.patch.object(progress, "LONG", 0.0):
            real = calls.clip

            def slow(*given, **options):
                sleep(0.05)
                return real(*given, **options)

            with mock.patch.object(calls, "clip", slow):
                status, left, said, _ = ran("clip", AREA, LINES, words=words)
        self.assertEqual((status, len(left["features"])), (0, 3))
        return said

    def test_a_line(self):
        self.assertEqual(self.clipped(), "polyover: clip of 3 features by 1 rings ..\n")
        self.assertEqual(self.clipped("--quiet"), "")

    def test_warnings_stay(self):
        bow = collection(feature("Polygon", [[[0, 0], [4, 4], [4, 0], [0, 4], [0, 0]]]))
        self.assertIn("1 ring crosses or overlaps itself", ran("simplify", bow, words=["--quiet"])[2])

    def shown(self, words):
        """What a command shows on a terminal."""
        shown, terminal = pty.openpty()
        code = "import sys; from polyover import progress; from polyover.__main__ import main; progress.LONG = 0.0; "
        command = [sys.executable, "-c", f"{code}sys.exit(main(sys.argv[1:]))", *words]
        with tempfile.TemporaryDirectory() as name:
            files = [Path(name, each) for each in ("a.geojson", "b.geojson")]
            for file, thing in zip(files, (AREA, LINES)):
                file.write_text(json.dumps(thing))
            done = subprocess.run([*command, *map(str, files)], stderr=terminal, stdout=subprocess.PIPE, check=True,
                                  env={**os.environ, "PYTHONPATH": os.pathsep.join(sys.path)})
        os.close(terminal)
        found = b""
        try:
            while part := os.read(shown, 4096):
                found += part
        except OSError:
            # (the terminal is closed)
            pass
        os.close(shown)
        self.assertEqual(len(json.loads(done.stdout)["features"]), 3)
        return found.decode()

    @unittest.skipIf(tqdm is None, "no python3 here has tqdm (Debian's python3-tqdm)")
    def test_a_bar_on_a_terminal(self):
        shown = self.shown(["clip"])
        self.assertIn("polyover: clip of 3 features by 1 rings", shown)
        self.assertIn("0/3", shown)
        self.assertNotIn(" ..", shown)
        self.assertEqual(self.shown(["clip", "--quiet"]), "")

    @unittest.skipIf(tqdm is None, "no python3 here has tqdm (Debian's python3-tqdm)")
    def test_no_bar_elsewhere(self):
        self.assertIsNone(progress.bar_of("work", 3))
        with mock.patch.object(sys, "stderr", io.StringIO()):
            self.assertIsNone(progress.bar_of("work", 3))


@contextmanager
def folder():
    """A folder that is there for a while."""
    with tempfile.TemporaryDirectory() as name:
        yield Path(name)


class Interrupted(unittest.TestCase):
    """Ctrl-C in a call of the library, and while files are written."""

    @with_library
    def test_in_a_call(self):
        with folder() as place:
            slow, out = place / "copies.geojson", place / "answer.geojson"
            slow.write_text(json.dumps(copies()))
            out.write_text("as it was")
            command = begun(["overlay", slow, slow, "--out", out, *SLOW])
            # (the line comes in the midst of the call)
            self.assertEqual(command.stderr.readline(), b"polyover: overlay of 15 and 15 rings ..\n")
            start = monotonic()
            command.send_signal(signal.SIGINT)
            self.assertEqual(ended(command), (-signal.SIGINT, ""))
            self.assertLess(monotonic() - start, 1)
            self.assertEqual((sorted(each.name for each in place.iterdir()), out.read_text()),
                             (["answer.geojson", "copies.geojson"], "as it was"))

    def test_while_files_are_written(self):
        with folder() as place:
            area, out, pipe = place / "a.geojson", place / "answer.geojson", place / "pipe"
            area.write_text(json.dumps(AREA))
            out.write_text("as it was")
            os.mkfifo(pipe)
            # (which nobody reads)
            command = begun(["overlay", area, area, "--out", out, "--svg", pipe])
            for _ in range(100):
                if len(list(place.iterdir())) == 4:
                    break
                sleep(0.05)
            self.assertEqual(len(list(place.iterdir())), 4)
            start = monotonic()
            command.send_signal(signal.SIGINT)
            self.assertEqual(ended(command), (-signal.SIGINT, ""))
            self.assertLess(monotonic() - start, 1)
            self.assertEqual((len(list(place.iterdir())), out.read_text()), (3, "as it was"))


class Named(unittest.TestCase):
    """Each fault names its file."""

    def told(self, *given, words=()):
        """What a command says that fails."""
        status, left, said, _ = ran(*given, words=words)
        self.assertEqual((status, left), (1, None))
        return said

    @with_library
    def test_refusals(self):
        unsettled = [feature("Polygon", [closed(contour)]) for contour in UNSETTLED[:2]]
        one, two = (collection(each) for each in unsettled)
        both = collection({**unsettled[0], "geometry": {
            "type": "MultiPolygon", "coordinates": [each["geometry"]["coordinates"] for each in unsettled]}})
        start = "After 64 rounds of splitting edges still meet"
        words = ["--solver", "rounds", "--digits", "0"]
        said = self.told("overlay", one, two, words=words)
        self.assertTrue(said.startswith(f"polyover: a.geojson and b.geojson: {start}"), said)
        said = self.told("overlay", collection(*AREA["features"], *one["features"]), two,
                         words=[*words, "--keep", "--rule", "intersect"])
        self.assertTrue(said.startswith(f"polyover: a.geojson: feature 2: {start}"), said)
        said = self.told("simplify", collection(*AREA["features"], *both["features"]), words=words)
        self.assertTrue(said.startswith(f"polyover: a.geojson: feature 2: {start}"), said)

    def test_memory(self):
        for refused in (MemoryError(), polyover.OutOfMemory("Memory was refused.")):
            with mock.patch.object(calls, "clip", side_effect=refused):
                said = self.told("clip", AREA, LINES)
            self.assertTrue(said.startswith("polyover: b.geojson: feature 1: "), said)
            with mock.patch.object(calls, "overlay", side_effect=refused):
                said = self.told("overlay", AREA, AREA)
            self.assertTrue(said.startswith("polyover: a.geojson and b.geojson: "), said)

    def test_points_and_grids(self):
        far = collection(feature("Point", [1, 1]), feature("MultiPoint", [[1, 1], [1e30, 1]]))
        self.assertIn("polyover: b.geojson: feature 2, point 2, point 1: ", self.told("locate", AREA, far))
        self.assertIn("polyover: a.geojson: feature 1: cells of ", self.told("tiles", AREA, words=["0.0001", "1"]))

    def test_inputs_of_the_program(self):
        with folder() as place:
            given = place / "given.txt"
            given.write_text("subject 0 0 4 0 4 4\nrun overlay union NonZero\n")
            status, said = ended(begun(["svg", given]))
        self.assertEqual((status, said), (1, f"polyover: {given}: line 2: RULE is Union, not union\n"))


if __name__ == "__main__":
    unittest.main()
