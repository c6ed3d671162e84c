"""Standard streams that take no more, or are closed: each command finishes what it writes, or fails and says so."""

import json
import os
import re
import resource
import signal
import subprocess
import sys
import tempfile
import unittest
from pathlib import Path
from time import sleep

from .features import collection, feature, square
from .there import HAS_LIBRARY, HAS_PROGRAM

MODULE = str(Path(__file__).resolve().parents[1])
# many squares apart, whose answers are longer than what a pipe holds
SIDE = 36
LEFT_LOW = [(3 * x, 3 * y) for x in range(SIDE) for y in range(SIDE)]
AREAS = collection(*(feature("Polygon", [square(x, y, x + 1, y + 1)]) for x, y in LEFT_LOW))
LINES = [f"subject {x} {y} {x + 1} {y} {x + 1} {y + 1} {x} {y + 1}\n" for x, y in LEFT_LOW * 4]
INPUT = f"{''.join(LINES)}run edges NonZero\n"
WITH_BUFFERS = ("", "1")


def environment(is_unbuffered):
    """The environment of a command."""
    return {**os.environ, "PYTHONPATH": MODULE, "PYTHONUNBUFFERED": is_unbuffered}


def begun(words, is_unbuffered="", preexec_fn=None, **how):
    """A command that has begun. It heeds Ctrl-C, which a shell keeps from what runs in its background."""

    def prepare():
        signal.signal(signal.SIGINT, signal.SIG_DFL)
        if preexec_fn:
            preexec_fn()

    words = [sys.executable, "-m", "polyover", *map(str, words)]
    how = {"stderr": subprocess.PIPE, **how}
    return subprocess.Popen(words, env=environment(is_unbuffered), preexec_fn=prepare, **how)


def ended(command, given=None):
    """The status of a command, and what it says."""
    said = command.communicate(given)[1]
    return command.returncode, said.decode()


def limit_files():
    """Lets files grow to 5000 bytes, as if the disk were full then."""
    resource.setrlimit(resource.RLIMIT_FSIZE, (5000, 5000))


@unittest.skipUnless(HAS_LIBRARY or HAS_PROGRAM, "no library for C (make -C c), and no program")
class Streams(unittest.TestCase):
    """Each with and without a buffer."""

    def setUp(self):
        folder = tempfile.TemporaryDirectory()
        self.addCleanup(folder.cleanup)
        self.folder = Path(folder.name)
        self.areas, self.input = self.folder / "areas.geojson", self.folder / "input.txt"
        self.areas.write_text(json.dumps(AREAS))
        self.input.write_text(INPUT)
        # (the words of a command, its status where it can't write, and what it says then)
        overlay = ("overlay", self.areas, self.areas)
        failed = "^polyover: standard output: {}\n$"
        self.commands = (overlay, 1, failed), (("svg", self.input), 1, failed), (("run",), 3, "^io failed\n$")

    def tried(self, words, unbuffered, **how):
        """The status of a command, and what it says, but for lines of what takes long."""
        with open(self.input, encoding="utf-8") as given:
            status, said = ended(begun(words, unbuffered, stdin=given, **how))
        return status, re.sub(r"polyover: [\w ]+ \.\.\n", "", said)

    def test_a_full_disk(self):
        for unbuffered in WITH_BUFFERS:
            for words, wanted, told in self.commands:
                with open("/dev/full", "w", encoding="utf-8") as full:
                    status, said = self.tried(words, unbuffered, stdout=full)
                self.assertEqual(status, wanted, words)
                self.assertRegex(said, told.format("No space left on device"))

    def test_a_disk_that_takes_a_part(self):
        for unbuffered in WITH_BUFFERS:
            for words, wanted, told in self.commands:
                with open(self.folder / "answer", "w", encoding="utf-8") as answer:
                    status, said = self.tried(words, unbuffered, stdout=answer, preexec_fn=limit_files)
                self.assertEqual((status, (self.folder / "answer").stat().st_size), (wanted, 5000), words)
                self.assertRegex(said, told.format("File too large"))

    def test_a_pipe_that_is_closed(self):
        for unbuffered in WITH_BUFFERS:
            for words, wanted, told in self.commands:
                with open(self.input, encoding="utf-8") as given:
                    command = begun(words, unbuffered, stdin=given, stdout=subprocess.PIPE)
                # (the command writes until the pipe is full)
                command.stdout.read(1)
                command.stdout.close()
                said = command.stderr.read().decode()
                command.stderr.close()
                self.assertEqual(command.wait(), wanted, words)
                self.assertRegex(re.sub(r"polyover: [\w ]+ \.\.\n", "", said), told.format("Broken pipe"))

    def test_streams_that_are_closed(self):
        for unbuffered in WITH_BUFFERS:
            for words, wanted, told in self.commands:
                status, said = self.tried(words, unbuffered, preexec_fn=lambda: os.close(1))
                self.assertEqual(status, wanted, words)
                self.assertRegex(said, told.format("Bad file descriptor"))
            status, said = ended(begun(["run"], unbuffered, preexec_fn=lambda: os.close(0)))
            self.assertEqual((status, said), (3, "io failed\n"))
            status, said = ended(begun(["relate", "-", self.areas], unbuffered, preexec_fn=lambda: os.close(0)))
            self.assertEqual((status, said), (1, "polyover: standard input: Bad file descriptor\n"))

    def test_standard_error_that_takes_nothing(self):
        for words, wanted in ((("run",), 3), (("relate", self.areas, "nowhere"), 1)):
            words = [sys.executable, "-m", "polyover", *map(str, words)]
            with open("/dev/full", "w", encoding="utf-8") as full:
                for how in ({"stderr": full}, {"preexec_fn": lambda: os.close(2)}):
                    with open(self.input, encoding="utf-8") as given:
                        done = subprocess.run(words, stdin=given, stdout=full, env=environment(""), check=False, **how)
                    self.assertEqual(done.returncode, wanted)

    def test_files_that_are_full(self):
        out = self.folder / "answer.geojson"
        words = ["overlay", self.areas, self.areas, "--out", out]
        status, said = self.tried(words, "", preexec_fn=limit_files)
        self.assertEqual((status, out.exists()), (1, False))
        self.assertEqual(said, f"polyover: {out}: File too large\n")
        status, said = self.tried([*words[:-1], "/dev/full"], "")
        self.assertEqual((status, said), (1, "polyover: /dev/full: No space left on device\n"))
        self.assertEqual(sorted(each.name for each in self.folder.iterdir()), ["areas.geojson", "input.txt"])

    def test_words_about_the_command(self):
        for unbuffered in WITH_BUFFERS:
            for words in (["--version"], ["--help"], ["overlay", "--help"]):
                with open("/dev/full", "w", encoding="utf-8") as full:
                    status, said = ended(begun(words, unbuffered, stdout=full))
                self.assertEqual((status, said), (1, "polyover: standard output: No space left on device\n"))

    def test_interrupted(self):
        """Ctrl-C while a command reads: it ends as by the signal, says nothing, and leaves no file."""
        pipe, out = self.folder / "pipe", self.folder / "answer.geojson"
        os.mkfifo(pipe)
        for unbuffered in WITH_BUFFERS:
            command = begun(["overlay", pipe, self.areas, "--out", out], unbuffered)
            # (opened once the command opens it too)
            with open(pipe, "w", encoding="utf-8"):
                command.send_signal(signal.SIGINT)
                self.assertEqual((*ended(command), out.exists()), (-signal.SIGINT, "", False))
            command = begun(["run"], unbuffered, stdin=subprocess.PIPE)
            # (more than a pipe holds: written once the command reads)
            command.stdin.write(INPUT.encode())
            sleep(0.1)
            command.send_signal(signal.SIGINT)
            said = command.stderr.read()
            command.stdin.close()
            command.stderr.close()
            self.assertEqual((command.wait(), said), (-signal.SIGINT, b""))


if __name__ == "__main__":
    unittest.main()
