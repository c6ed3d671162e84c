"""Words of the command line: their values, and those that come twice."""

import contextlib
import io
import unittest

from polyover.__main__ import main

from .features import collection, feature, ran, square


def refused(*words):
    """The status with which words are refused, and the last line of what is said."""
    said = io.StringIO()
    with contextlib.redirect_stderr(said):
        try:
            status = main(list(words))
        except SystemExit as ended:
            status = ended.code
    return status, said.getvalue().splitlines()[-1]


class Words(unittest.TestCase):
    """Words that are taken, and those that are not."""

    def test_words_that_stand_for_nothing(self):
        for words, fault in ((["simplify", "a", "--min-area", "1/0"], "--min-area: invalid number from 0 on value"),
                             (["tiles", "a", "1", "1/0"], "HIGH: invalid number"),
                             (["simplify", "a", "--out", ""], "--out: invalid name of a file"),
                             (["simplify", "a", "--svg", ""], "--svg: invalid name of a file"),
                             (["play", "--out", ""], "--out: invalid name of a file")):
            status, said = refused(*words)
            self.assertEqual(status, 2)
            self.assertIn(fault, said)

    def test_options_that_come_twice(self):
        for words, name in ((["simplify", "a", "--digits", "3", "--digits", "4"], "--digits"),
                            (["simplify", "a", "--dig", "3", "--digits=3"], "--digits"),
                            (["overlay", "a", "b", "--rule", "xor", "--fill", "evenodd", "--rule", "xor"], "--rule"),
                            (["overlay", "a", "b", "--keep", "--keep", "both"], "--keep"),
                            (["relate", "a", "b", "--out", "c", "--out", "d"], "--out"),
                            (["svg", "a", "--width", "500", "--width", "600"], "--width"),
                            (["play", "--port", "1", "--port", "2"], "--port")):
            status, said = refused(*words)
            self.assertEqual(status, 2)
            self.assertTrue(said.endswith(f" error: argument {name}: it comes twice"), said)

    def test_an_option_without_a_value_may_come_twice(self):
        area = collection(feature("Polygon", [square(0, 0, 2, 2)]))
        status, left, said, _ = ran("simplify", area, words=["--quiet", "--skip-invalid", "--quiet"])
        self.assertEqual((status, len(left["features"]), said), (0, 1, ""))

    def test_help(self):
        for words in (["--help"], ["--version"], ["overlay", "--help"], ["svg", "--help"], ["run", "--help"]):
            said = io.StringIO()
            with contextlib.redirect_stdout(said), self.assertRaises(SystemExit) as ended:
                main(words)
            self.assertEqual(ended.exception.code, 0)
            self.assertIn("polyover", said.getvalue())
