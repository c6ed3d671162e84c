#!/usr/bin/env python3
"""Builds a program without a proof, optimised: polyover, or the one of another crate.

    build.py PROGRAM                                   leaves polyover at the path PROGRAM
    build.py PROGRAM --crate FOLDER --uses CRATE ..

FOLDER has the crate's src/main.rt, and CRATE .. are the crates that it uses, of the repository or the toolchain.

The crates are copied to a temporary folder. Nothing is proved: the program's module is compiled without the checks that
`rt try` adds (scripts/unproved.py). That takes a minute or two, and a C compiler (`cc`). `scripts/build` builds
polyover and the library for C by the same steps.
"""

import argparse
import sys
from pathlib import Path

ROOT = Path(__file__).resolve().parent.parent
sys.path.insert(0, str(ROOT / "scripts"))
from assembly import linked_program  # noqa: E402
from toolchain import answer_of  # noqa: E402, F401
from unproved import POLYOVER, polyover_text, program_text  # noqa: E402

PROVED = POLYOVER / "out" / "polyover"


def build(program, crate, used):
    """Leaves the program of a crate at a path."""
    program.parent.mkdir(parents=True, exist_ok=True)
    linked_program(program_text(crate, used), program.resolve())


# ---- the option of the scripts that time the program


def add_program_option(parser):
    """The option --program: which program is timed, by default the proved one."""
    parser.add_argument("--program", type=Path, default=PROVED, help="the program to time")


def program_of(parser, options):
    """The path of the program to time, which must be there."""
    program = options.program.resolve()
    if not program.is_file():
        parser.error(f"no program at {program}: benches/build.py makes one in a minute or two, for --program")
    return program


def main():
    usage = "build.py PROGRAM [--crate FOLDER --uses CRATE ..]"
    how = {"usage": usage, "description": __doc__, "formatter_class": argparse.RawDescriptionHelpFormatter}
    parser = argparse.ArgumentParser(**how)
    parser.add_argument("program", type=Path, metavar="PROGRAM")
    parser.add_argument("--crate", type=Path, metavar="FOLDER", help="the folder of another program's crate")
    parser.add_argument("--uses", nargs="+", metavar="CRATE", default=[], help="the crates that it uses")
    given = parser.parse_args()
    if given.crate is None:
        given.program.parent.mkdir(parents=True, exist_ok=True)
        linked_program(polyover_text(), given.program.resolve())
    else:
        build(given.program, given.crate.resolve(), given.uses)


if __name__ == "__main__":
    main()
