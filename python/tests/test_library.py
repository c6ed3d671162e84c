"""The library for C: what is declared of it, when it is asked, and that it answers as the program does."""

import ctypes
import os
import random
import re
import unittest
from concurrent.futures import ThreadPoolExecutor
from decimal import Decimal
from fractions import Fraction
from unittest import mock

import polyover
from polyover import by_library, by_program, functions, library, statuses, structs
from polyover.calls import Look
from polyover.commands import printed
from polyover.program import BadLine, answer, program
from polyover.text import FILLS, RELATIONS, ROUNDS, RULES, SOLVERS

from .inputs import COMMANDS, ROOT, cases_of_program, inputs_of
from .rows import OTHER, SQUARE, UNSETTLED
from .there import ask_library_alone, asked_alone, library_path, with_both, with_library

HEADER = (ROOT / "include" / "polyover.h").read_text()
INPUTS = 60
LIMIT = 4611686018427387903
PLAIN = Look(ogc=True, clockwise=False, keep=False, minimum_area=0)


class Declared(unittest.TestCase):
    """What is declared is what the header says."""

    def numbers(self, prefix, names):
        """The numbers that the header gives to names, in this order."""
        return [int(re.search(rf"\b{prefix}{name.upper()} = (\d+)", HEADER)[1]) for name in names]

    def test_numbers(self):
        self.assertEqual(self.numbers("POLYOVER_", [each.name for each in statuses.Status]), list(statuses.Status))
        self.assertEqual(self.numbers("POLYOVER_", RULES), list(by_library.RULE_NUMBERS.values()))
        self.assertEqual(self.numbers("POLYOVER_", SOLVERS), list(by_library.SOLVER_NUMBERS.values()))
        self.assertEqual(self.numbers("POLYOVER_", RELATIONS), [1, 2, 4, 8, 16, 32, 64])
        fills = ["even_odd", "non_zero", "positive", "negative"]
        self.assertEqual([name.replace("_", "") for name in fills], list(FILLS))
        self.assertEqual(self.numbers("POLYOVER_", fills), list(by_library.FILL_NUMBERS.values()))

    def test_structs(self):
        names = {"options": "Options", "clip_options": "ClipOptions", "result": "Result", "contours": "Contours"}
        for name, here in names.items():
            found = re.search(rf"typedef struct \{{([^}}]*)\}} polyover_{name};", HEADER)
            if found:
                fields = re.findall(r"(\w+);", re.sub(r"/\*.*?\*/", "", found[1], flags=re.S))
                self.assertEqual(fields, [field for field, _ in getattr(structs, here)._fields_], name)

    def test_arguments(self):
        for name, kinds in functions.FUNCTIONS.items():
            found = re.search(rf"\b{name}\(([^)]*)\);", HEADER)
            if found:
                told = [] if found[1] == "void" else found[1].split(",")
                arguments = [re.sub(r"\s*\w+$", "", each.strip()) for each in told]
                self.assertEqual(len(arguments), len(kinds), name)
                self.assertEqual(["*" in each for each in arguments], [is_pointer(kind) for kind in kinds], name)


def is_pointer(kind):
    """Whether an argument is a pointer."""
    return kind is ctypes.c_void_p or hasattr(kind, "contents")


class Chosen(unittest.TestCase):
    """Which of the two is asked."""

    def asked(self, **named):
        """What is asked where these variables are set, and no other."""
        both = {library.VARIABLE: "", "POLYOVER_PROGRAM": ""}
        with mock.patch.dict(os.environ, {**both, **named}):
            return polyover.backend()

    def test_named(self):
        self.assertEqual(self.asked(POLYOVER_PROGRAM="/nowhere/polyover"), "program")
        with self.assertRaisesRegex(polyover.LibraryMissing, "/nowhere/libpolyover.so can't be loaded"):
            self.asked(POLYOVER_LIBRARY="/nowhere/libpolyover.so")

    def test_none_is_there(self):
        with mock.patch.object(library, "BUILT", "/nowhere/libpolyover.so"):
            self.assertEqual(self.asked(), "program")

    @with_library
    def test_named_with_the_program(self):
        ask_library_alone(self)
        self.assertEqual(polyover.backend(), "library")

    @with_both
    def test_named_from_their_folders(self):
        for path, variable in ((library_path(), library.VARIABLE), (str(program()), "POLYOVER_PROGRAM")):
            self.addCleanup(os.chdir, os.getcwd())
            os.chdir(os.path.dirname(path))
            asked_alone(self, **{variable: os.path.basename(path)})
            self.assertEqual(len(polyover.overlay([SQUARE])), 1)


@with_library
class Asked(unittest.TestCase):
    """What the library alone answers."""

    def test_more_room_where_an_answer_takes_it(self):
        count = 120
        rows = [[(0, 2 * at), (999, 2 * at), (999, 2 * at + 1), (0, 2 * at + 1)] for at in range(count)]
        columns = [[(y, x) for x, y in reversed(row)] for row in rows]
        shapes = by_library.overlay(rows, columns, "intersect", "nonzero", PLAIN)
        self.assertEqual(len(shapes), count * count)
        end = 2 * count - 2
        self.assertEqual(shapes[-1], [[(end, end + 1), (end, end), (end + 1, end), (end + 1, end + 1)]])

    def test_wrong_coordinates(self):
        whole, out = "no whole number", "out of range"
        wrong = [(0.5, whole), (1.0, whole), ("1", whole), (None, whole), (Fraction(3), whole), (Decimal(3), whole)]
        wrong += [(value, out) for value in (LIMIT + 1, -LIMIT - 1, 2**63, -(2**63) - 1, 2**64, 10**30)]
        for value, told in wrong:
            for points in ([(value, 0)], [(0, 0), (0, value)]):
                with self.assertRaisesRegex(polyover.BadInput, told):
                    by_library.overlay([SQUARE], [points], "union", "nonzero", PLAIN)

    def test_statuses(self):
        for status, fault in statuses.FAULTS.items():
            with self.assertRaises(fault):
                statuses.check(status)
        with self.assertRaises(polyover.NotSettled):
            by_library.overlay(UNSETTLED, (), "subject", "nonzero", PLAIN._replace(solver=ROUNDS))
        self.assertEqual(len(by_library.overlay(UNSETTLED, (), "subject", "nonzero", PLAIN)), 1)


def fault_or(call, *given):
    """What a call answers, or the kind of its fault."""
    try:
        return call(*given)
    except BadLine:
        return polyover.BadInput
    except polyover.PolyoverError as fault:
        return type(fault)


def contours(chance, size, most):
    """Some contours of few points."""
    counts = [chance.randint(0, 9) for _ in range(chance.randint(0, most))]
    return [[(chance.randint(0, size), chance.randint(0, size)) for _ in range(count)] for count in counts]


def made(chance):
    """The arguments of each call, by its name, over made contours, in rounds, as the program splits."""
    size = chance.choice((4, 20, 1000, LIMIT // 2, LIMIT))
    subject, clip, lines = (contours(chance, size, 3) for _ in range(3))
    points = [(chance.randint(0, size), chance.randint(0, size)) for _ in range(5)]
    triangles = [[(0, 0), (each, 1), (1, each)] for each in range(2, chance.randint(3, 6))] + subject[: size == 4]
    fill, rule = chance.choice(list(FILLS)), chance.choice(list(RULES))
    area, least = (chance.choice((0, 0, 3, 2**64 + 1, 2**127 - 1)) for _ in range(2))
    look = Look(chance.random() < 0.5, chance.random() < 0.5, chance.random() < 0.5, area, ROUNDS)
    sides = [chance.choice((-1, 0, 1, 3, size // 3 + 1, size // 900 + 1, LIMIT)) for _ in range(2)]
    return {
        "overlay": (subject, clip, rule, fill, look),
        "hierarchy": (subject, clip, rule, fill, look),
        "simplify": (chance.choice((subject, subject[:1], triangles[-1:])), fill, look._replace(minimum_area=least)),
        "edges": (subject, clip, fill, ROUNDS),
        "relate": (subject, clip, fill, ROUNDS),
        "relate_one": (chance.choice(RELATIONS), subject, clip, fill, ROUNDS),
        "clip": (subject, lines, fill, look.keep, look.ogc, ROUNDS),
        "slice": (subject, lines, fill, ROUNDS),
        "tiles": (subject, *sides, fill, ROUNDS),
        "is_resolved": (chance.choice((subject, triangles)),),
        "locate": (triangles, points),
    }


@with_both
class Compared(unittest.TestCase):
    """The library answers as the program does; several threads ask at once."""

    def differences(self, inputs, is_other):
        """That of no input the two answers differ."""
        with ThreadPoolExecutor(8) as threads:
            found = [each for each, differs in zip(inputs, threads.map(is_other, inputs)) if differs]
        self.assertEqual(found, [])

    def test_inputs_of_the_engine(self):
        for command in filter(by_library.can, COMMANDS):
            inputs = inputs_of(command)
            self.assertGreater(len(inputs), 9)
            with self.subTest(command):
                self.differences(inputs, lambda text: not self.is_same(text))

    def is_same(self, text):
        """Whether both answer an input alike, to the byte."""
        here, there = fault_or(printed, text), fault_or(answer, text)
        # (the program names the line of a contour that is not resolved)
        return here == there or (here is polyover.NotResolved and there is polyover.BadInput)

    def test_inputs_of_the_program(self):
        small = [case for case in cases_of_program() if case.status == 0]
        self.assertGreater(len(small), 9)
        for case in small:
            self.assertEqual(printed(case.text.replace("\r", "")), case.written, case.name)

    def test_made_inputs(self):
        chance = random.Random(5)
        asked = [(call, given) for _ in range(INPUTS) for call, given in made(chance).items() if by_library.can(call)]
        self.assertGreaterEqual(len(asked), INPUTS)

        def is_other(each):
            call, given = each
            return fault_or(getattr(by_library, call), *given) != fault_or(getattr(by_program, call), *given)

        self.differences(asked, is_other)

    def test_numbers_of_other_kinds(self):
        class Seven:
            """A whole number that is no int."""

            def __index__(self):
                return 7

        square = [(0, 0), (Seven(), 0), (Seven(), Seven()), [0, Seven()]]
        given = [square, iter(OTHER), ()], [[]], "union", "nonzero", PLAIN
        self.assertEqual(by_library.overlay(*given), [[[(0, 7), (0, 0), (7, 0), (7, 7)]]])


if __name__ == "__main__":
    unittest.main()
