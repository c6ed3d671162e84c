"""Inputs of the program in its own tests: those of `.ci/program`, and what tests/polyover_engine is made of."""

import os
import re
import sys
from importlib.machinery import SourceFileLoader
from importlib.util import module_from_spec, spec_from_loader
from itertools import product
from pathlib import Path

ROOT = Path(__file__).resolve().parents[2]
TESTS = ROOT / "tests" / "polyover_engine"
LITERAL = re.compile(r'b?"((?:[^"\\]|\\.)*)"', re.S)
ESCAPES = ((re.compile(r"\\\n\s*"), ""), (re.compile(r"\\n"), "\n"), (re.compile(r"\\r"), "\r"))
FIGURES = re.compile(r"(?:(?:subject|clip|line|point)(?: -?\d+ -?\d+)*\n)+")
PLACE = re.compile(r"\{\w+\}")
FILL = "(?:EvenOdd|NonZero|Positive|Negative)"
OVERLAY = re.compile(rf"[A-Z]\w+ {FILL}(?: ogc| keep| clockwise| min \d+)*")
COMMANDS = {
    "overlay": ("overlays", OVERLAY),
    "hierarchy": ("hierarchies", OVERLAY),
    "relate": ("relations", re.compile(FILL)),
    "edges": ("edges", re.compile(FILL)),
    "clip": ("clips", re.compile(rf"{FILL}(?: invert| boundary)*")),
    "slice": ("slices", re.compile(FILL)),
    "tiles": ("tiles", re.compile(rf"{FILL} -?\d+ -?\d+")),
    "locate": ("points", re.compile("")),
}


def cases_of_program():
    """The runs of `.ci/program`."""
    loader = SourceFileLoader("program_cases", str(ROOT / ".ci" / "program"))
    made = module_from_spec(spec_from_loader("program_cases", loader))
    sys.modules["program_cases"] = made
    before, sys.dont_write_bytecode = os.getcwd(), True
    os.chdir(ROOT)
    try:
        loader.exec_module(made)
    finally:
        os.chdir(before)
    return made.CASES


def literals(file):
    """The texts in a file of Rust."""
    found = []
    for literal in LITERAL.findall(file.read_text()):
        for escape, meant in ESCAPES:
            literal = escape.sub(meant, literal)
        found.append(literal)
    return found


def figures_of(texts):
    """The lines of contours, paths and points among some texts, in places of others too."""
    filled = [PLACE.sub(lambda _, each=each: each, text) for text in texts if PLACE.search(text) for each in texts]
    return [text for text in dict.fromkeys([*texts, *filled]) if FIGURES.fullmatch(text)]


def inputs_of(command):
    """Inputs with a command: all contours in its file of tests, with all paths or points, and all its options there."""
    name, pattern = COMMANDS[command]
    texts = literals(TESTS / f"{name}.rs")
    figures = figures_of(texts)
    others = [text for text in figures if "subject" not in text and "clip" not in text]
    contours = [text for text in figures if text not in others]
    asked = [f"run {command} {text}".rstrip() + "\n" for text in dict.fromkeys(texts) if pattern.fullmatch(text)]
    whole = re.compile(rf"{FIGURES.pattern}run {command} ?{pattern.pattern}\n")
    made = ["".join(parts) for parts in product(contours, others or [""], asked or [f"run {command}\n"])]
    return [text for text in texts if whole.fullmatch(text)] + made
