"""Inputs of the program: they are read here as the program reads them, and so are bad ones refused."""

import unittest
from itertools import product

from polyover import PolyoverError
from polyover.commands import figures_in
from polyover.inputs import told_of
from polyover.program import BadLine, answer
from polyover.reasons import reason_of

from .there import with_program

FIGURES = (
    "",
    "subject\nline\n",
    "subject 0 0 4 0 -4 4\n\nline 1 2\r\n",
    "  clip  -0 007   1 2 \npoint 1 2\n",
    "subject 4611686018427387903 -4611686018427387903\n",
    "subject 4611686018427387904 0\n",
    "subject 0 0 1\nclip x\n",
    "clip 1 +2\n",
    "clip 1\t2\n",
    "clip 1 2.0\n",
    "clip 1 - 2\n",
    "clip 1 \u0662\n",
    "point\n",
    "point 1 2 3 4\n",
    "points 1 2\n",
    "run edges NonZero\n",
)
COMMANDS = (
    "",
    "run",
    "run edges NonZero",
    "run edges NonZero\r",
    "run  relate  EvenOdd \r\n\n \n",
    "run edges nonzero",
    "run edges",
    "run slice Positive keep",
    "run overlay Union Negative",
    "run overlay Union",
    "run overlay NonZero Union",
    "run hierarchy Clip NonZero min 3 ogc keep clockwise",
    "run hierarchy Xor NonZero min 03 keep keep",
    "run overlay Subject NonZero min 3 min 3",
    "run overlay Subject NonZero min -0",
    "run overlay Subject NonZero min -1",
    "run overlay Subject NonZero min 170141183460469231731687303715884105727",
    "run overlay Subject NonZero min 170141183460469231731687303715884105728",
    "run overlay Subject NonZero min",
    "run overlay Subject NonZero ogc 3",
    "run clip NonZero boundary invert",
    "run clip NonZero invert invert",
    "run tiles NonZero 1 2",
    "run tiles NonZero 1",
    "run tiles NonZero 1 2 3",
    "run locate",
    "run contains",
    "run locate NonZero",
    "run simplify NonZero",
    "run locate\nrun locate",
    "run locate\nsubject",
)


def bad_line(read, text):
    """The number of the bad line that a reader of an input names, if it names one."""
    try:
        read(text)
    except BadLine as bad:
        return bad.line
    return None


class Inputs(unittest.TestCase):
    """What is read of an input."""

    def test_figures_and_command(self):
        figures, words = figures_in("subject 0 0 4 0 4 4\npoint 1 -2\nline\nrun overlay Union NonZero min 3\n")
        paths = {"subject": [[(0, 0), (4, 0), (4, 4)]], "clip": [], "line": [[]], "point": [[(1, -2)]]}
        self.assertEqual(figures, paths)
        self.assertEqual(words, ["overlay", "Union", "NonZero", "min", "3"])

    def test_reasons(self):
        square = "subject 0 0 4 0 4 4\n"
        for text, told in (
            ("", "line 1: no line has a command"),
            (square, "line 2: no line has a command"),
            (square + "run overlay union NonZero\n", "line 2: RULE is Union, not union"),
            (square + "run overlay Unite NonZero\n", "line 2: RULE is one of Subject, .*: not 'Unite'"),
            (square + "run overlay Union\n", "line 2: FILL is one of EvenOdd, .*: missing"),
            (square + "run overlay Union NonZero ogc ogc\n", "line 2: the option ogc comes twice"),
            (square + "run overlay Union NonZero min -1\n", "line 2: min takes a whole number from 0 to 17014"),
            (square + "run relate NonZero ogc\n", "line 2: 'ogc': no word is left for it"),
            (square + "run tiles NonZero 3\n", "line 2: tiles takes two whole numbers"),
            (square + "run tiles NonZero 0 3\n", "line 2: the grid does not fit|cells of 0 by 3 do not fit"),
            (square + "run Edges NonZero\n", "line 2: the command is edges, not Edges"),
            (square + "run\n", "line 2: the command is one of .*: missing"),
            ("subject 0 0 4\n" + square, "line 1: 3 numbers: x and y take two for each point"),
            ("subject 0 1.5\n", "line 1: '1.5' is no whole number"),
            ("line 0 4611686018427387904\n", "line 1: '4611686018427387904' is out of range"),
            ("point 1 2 3 4\n", "line 1: 4 numbers: a point has two"),
            ("Subject 0 0\n", "line 1: the first word is subject, not Subject"),
            (square + "run edges NonZero\n" + square, "line 3: it stands behind the command"),
            ("subject 0 0 4 4 4 0 0 4\nrun locate\n", "line 1: two steps of the contour share|contour 1 is not"),
        ):
            with self.subTest(text), self.assertRaisesRegex(PolyoverError, told):
                told_of(text)

    @with_program
    def test_bad_lines_are_those_of_the_program(self):
        for parts in product(FIGURES, COMMANDS):
            text = "".join(parts)
            number = bad_line(answer, text)
            self.assertEqual(bad_line(figures_in, text), number, parts)
            if number is not None:
                self.assertNotEqual(reason_of(text, number), "bad input", parts)


if __name__ == "__main__":
    unittest.main()
