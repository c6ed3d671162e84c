#!/usr/bin/env python3
"""Leaves the assembly of the library for a processor, which any C compiler for it assembles (c/library.mk).

    assembly.py FILE.s [--processor x86_64|aarch64|wasm64|x86_64-macos|arm64-macos] [--proved]

It is made of the proved module, where `.ci/library` has left that and nothing is newer; else of one without a proof,
which takes a minute more (unproved.py). With --proved the library is proved first if it is not, an hour or more. It
says what it was made of on standard error, and in a line at the head of the file.
"""

import argparse
import os
import re
import sys
import tempfile
import time
from dataclasses import dataclass
from pathlib import Path

from toolchain import ROOT, answer_of, clang, kit, text_of
from unproved import LIBRARY, leave_library, library_text
from workspace import crate_uses, crates_below

MODULE = ROOT / "crates" / LIBRARY / "out" / f"{LIBRARY}.bc"
CHECKED = ROOT / "out" / "checked" / f"{LIBRARY}.bc"
PROVED, UNPROVED = "of the proved module", "of an unproved module"
# (what `polyover_built` answers, c/library_built.c)
TOLD = "\n@polyover_is_proved = constant i8 {}\n"

# (functions up to this size become part of those that call them. A merged function has more callers than its instances
# had: at 2000 the library takes up to 4 in 100 more instructions than if nothing is merged, here up to 2, and 10 for
# zigzags; at 10000 a call would need a larger stack than docs/C.md says)
INLINED = ("-mllvm", "-inline-threshold=5000")
# (a program is built in less time with fewer: at 500 it takes 1 in 100 fewer instructions than if nothing is merged,
# at 1000 4 to 7 fewer, but 11 seconds more to compile)
INLINED_IN_PROGRAMS = ("-mllvm", "-inline-threshold=500")
# (nothing else is done to the module)
MERGED = ("-O0", "-Xclang", "-fmerge-functions", "-emit-llvm", "-c")
QUOTED = re.compile(r'@"([^"]+)"')


def plainly_named(text: str) -> str:
    """The text of a module with numbers in the place of names that take quotes."""
    numbers: dict[str, int] = {}
    return QUOTED.sub(lambda name: f"@it.{numbers.setdefault(name[1], len(numbers))}", text)


@dataclass(frozen=True)
class Processor:
    """What a module says of the processor that it is compiled for; the least one of its kind. Some assemblers read
    plain names alone."""

    triple: str
    layout: str
    least: str
    code: tuple[str, ...] = ("-fPIC", *INLINED)
    is_plain: bool = False

    def flags(self) -> tuple[str, ...]:
        """The flags of the toolchain's compiler."""
        return f"--target={self.triple}", "--no-default-config", self.least, "-x", "ir"

    def of(self, text: str) -> str:
        """The text of a module, for this processor."""
        text = re.sub(r'^target datalayout = ".*"$', f'target datalayout = "{self.layout}"', text, 1, re.M)
        text = re.sub(r'^target triple = ".*"$', f'target triple = "{self.triple}"', text, 1, re.M)
        text = re.sub(r'"target-(?:cpu|features)"="[^"]*" ?', "", text)
        return plainly_named(text) if self.is_plain else text


PROCESSORS = {
    "x86_64": Processor(
        "x86_64-unknown-linux-gnu",
        "e-m:e-p270:32:32-p271:32:32-p272:64:64-i64:64-i128:128-f80:128-n8:16:32:64-S128",
        "-march=x86-64",
    ),
    "aarch64": Processor(
        "aarch64-unknown-linux-gnu",
        "e-m:e-p270:32:32-p271:32:32-p272:64:64-i8:8:32-i16:16:32-i64:64-i128:128-n32:64-S128-Fn32",
        "-march=armv8-a",
    ),
    # (macOS: assembled by tests, and not run)
    "x86_64-macos": Processor(
        "x86_64-apple-macosx11.0.0",
        "e-m:o-p270:32:32-p271:32:32-p272:64:64-i64:64-i128:128-f80:128-n8:16:32:64-S128",
        "-march=x86-64",
    ),
    "arm64-macos": Processor(
        "arm64-apple-macosx11.0.0",
        "e-m:o-p270:32:32-p271:32:32-p272:64:64-i64:64-i128:128-n32:64-S128-Fn32",
        "-march=armv8-a",
    ),
    # (WebAssembly, for js/Makefile)
    "wasm64": Processor(
        "wasm64-unknown-unknown",
        "e-m:e-p:64:64-p10:8:8-p20:8:8-i64:64-i128:128-n32:64-S128-ni:1:10:20",
        "-mcpu=generic",
        (),
        is_plain=True,
    ),
}


def compiled(text: str, processor: Processor, to: Path, *flags: str) -> None:
    """Compiles the text of a module for a processor, with equal functions merged.

    Most functions are instances that differ in no more than their names. The compiler makes one of equal functions
    before it inlines calls; afterwards few bodies are still equal.
    """
    with tempfile.TemporaryDirectory(prefix="polyover-") as folder:
        module, merged = Path(folder) / "module.ll", Path(folder) / "merged.bc"
        module.write_text(processor.of(text))
        answer_of([clang(), *processor.flags(), *MERGED, module, "-o", merged])
        answer_of([clang(), *processor.flags(), "-O3", *flags, merged, "-o", to])


def linked_program(text: str, program: Path, *flags: str) -> None:
    """Links a program of the text of its module; flags of the compiler may follow."""
    with tempfile.TemporaryDirectory(prefix="polyover-") as folder:
        machine = Path(folder) / "program.o"
        compiled(text, PROCESSORS["x86_64"], machine, "-fPIE", "-c", *INLINED_IN_PROGRAMS, *flags)
        answer_of(["cc", machine, kit() / "c" / "libos_c.a", kit() / "c" / "liblibc_c.a", "-o", program])


# ---- the library


def is_newer(made: Path, crate: str) -> bool:
    """Whether a file is there that is newer than the sources of a crate and of those below it."""
    uses = crate_uses()
    sources = [file for name in crates_below(uses, [crate]) for file in (ROOT / "crates" / name / "src").rglob("*.rt")]
    return made.is_file() and all(file.stat().st_mtime <= made.stat().st_mtime for file in sources)


def head_of(file: Path) -> str:
    """The first line of a file."""
    with open(file, encoding="utf-8") as lines:
        return lines.readline()


def time_of(file: Path) -> float:
    """When a file was changed; of none, before all others."""
    return file.stat().st_mtime if file.is_file() else 0


def leave(file: Path, processor: str, is_proved: bool) -> None:
    """Leaves the assembly, and says what it is made of."""
    if is_proved and not is_newer(MODULE, LIBRARY):
        answer_of([ROOT / ".ci" / "library"], cwd=ROOT)
    # (what is made gets this time, so that a source which changes on the way is newer)
    began = time.time()
    made_of = PROVED if is_newer(MODULE, LIBRARY) else UNPROVED
    head = f"/* The library polyover for {processor}, {made_of}. */\n"
    latest = max(time_of(MODULE), time_of(Path(__file__)))
    if is_newer(file, LIBRARY) and head_of(file) == head and file.stat().st_mtime >= latest:
        return
    print(f"polyover: the library for {processor}, {made_of} ..", file=sys.stderr, flush=True)
    if made_of == UNPROVED and not is_newer(CHECKED, LIBRARY):
        leave_library(CHECKED)
        os.utime(CHECKED, (began, began))
    text = text_of(MODULE) if made_of == PROVED else library_text(CHECKED)
    text += TOLD.format(int(made_of == PROVED))
    file.parent.mkdir(parents=True, exist_ok=True)
    target = PROCESSORS[processor]
    compiled(text, target, file, *target.code, "-ffunction-sections", "-fno-addrsig", "-S")
    file.write_text(head + file.read_text())
    os.utime(file, (began, began))


def main() -> None:
    """Leaves the assembly for a processor."""
    parser = argparse.ArgumentParser(description=__doc__, formatter_class=argparse.RawDescriptionHelpFormatter)
    parser.add_argument("file", type=Path, metavar="FILE.s")
    parser.add_argument("--processor", choices=PROCESSORS, default="x86_64")
    parser.add_argument("--proved", action="store_true", help="prove it first, if it is not proved")
    given = parser.parse_args()
    leave(given.file, given.processor, given.proved)


if __name__ == "__main__":
    main()
