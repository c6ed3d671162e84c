#!/usr/bin/env python3
"""Runs the tests of i_overlay itself over the crate, where its sources are: word for word, but for one import.

    laid.py UPSTREAM CRATE FOLDER   lays and runs them in FOLDER; UPSTREAM has the texts, CRATE the crate's files

Of its test modules those of public calls are run, and the Rust blocks of its README. Each test that does not pass here
is in DEPARTURES, with a reason: one more, or one that passes after all, is a fault. They are not part of this work.
"""

from __future__ import annotations

import re
import shutil
import subprocess
import sys
from pathlib import Path
from textwrap import dedent

HERE = Path(__file__).resolve().parent
MODULE = re.compile(r"// ===== src/(\S+)\.rs \(test module\) =====\n")
BLOCK = re.compile(r"^( *)```rust\n(.*?)^ *```$", re.M | re.S)
TOLD = re.compile(r"^test (\S+) \.\.\. (ok|FAILED)$", re.M)
# modules of tests of private functions, which no other crate can have
PRIVATE = {"bind/solver", "core/nearest_vector", "core/predicate", "string/split", "vector/simplify"}
# what `use super::*` reaches in the files of i_overlay
POINT = "use i_float::int::point::IntPoint;\n"
HEADS = {
    "core/hierarchy": "use crate::core::hierarchy::{ChildLink, FlatShapeHierarchy};\n",
    "core/relate": f"use crate::core::overlay::ShapeType;\nuse crate::core::relate::*;\n{POINT}",
    "core/point_location": f"use crate::core::point_location::*;\n{POINT}use i_float::triangle::Triangle;\n"
    "use i_shape::int::shape::{IntContour, IntShape};\n",
}
# (a private import)
CHANGED = ("use crate::core::simplify::vec;", "use alloc::vec;")
ROUNDED = "two crossings are at half units: snap rounding leaves one shape; of twice the coordinates it gives three"
DEPARTURES = {"upstream::string_slice::tests::test_7": ROUNDED}
# blocks of README by a word in them
NOT_HAD = {"mesh::": "offsets are left out"}
HEAD = "#![allow(dead_code, deprecated, unused_imports, unused_macros, unused_variables, clippy::all)]\n"


def modules(upstream: Path) -> dict[str, str]:
    """The test modules of public calls, by their names."""
    texts = [next(upstream.glob(f"*tests--part{number}.rs.txt")).read_text() for number in (1, 2, 3)]
    parts = MODULE.split("\n".join(texts))
    found = {}
    for name, body in zip(parts[1::2], parts[2::2]):
        if name not in PRIVATE:
            if name == "core/relate":
                # (helpers, cut off at the end)
                body = f"{body[: body.index('    /// Creates a diamond')]}}}\n"
            found[name.replace("/", "_")] = HEADS.get(name, "") + body.replace(*CHANGED)
    return found


def blocks(upstream: Path) -> list[str]:
    """The Rust blocks of README."""
    return [dedent(body) for _, body in BLOCK.findall((upstream / "README.md").read_text())]


def lay(upstream: Path, crate: Path, folder: Path) -> None:
    """Lays the tests in a folder."""
    shutil.rmtree(folder, ignore_errors=True)
    package = folder / "tests"
    shutil.copytree(HERE, package, ignore=shutil.ignore_patterns("*.py", "__pycache__"))
    (folder / "polyover").symlink_to(crate.resolve())
    (package / "src").mkdir()
    (package / "src" / "lib.rs").touch()
    tests = package / "tests"
    (tests / "upstream").mkdir(parents=True, exist_ok=True)
    found = modules(upstream)
    for name, body in found.items():
        (tests / "upstream" / f"{name}.rs").write_text(body)
    declared = "".join(f"    pub mod {name};\n" for name in found)
    shown = "extern crate alloc;\npub use i_overlay::{core, i_float, i_shape, string, vector};\n"
    (tests / "upstream.rs").write_text(f"{HEAD}{shown}mod upstream {{\n{declared}}}\n")
    text = HEAD
    for number, body in enumerate(blocks(upstream), 1):
        if not any(word in body for word in NOT_HAD):
            text += f"#[test]\nfn block_{number}() {{\n{body}}}\n"
    (tests / "readme.rs").write_text(text)


def main() -> int:
    """Lays and runs them, and compares what does not pass with what should not."""
    upstream, crate, folder = map(Path, sys.argv[1:4])
    lay(upstream, crate, folder)
    words = ["cargo", "test", "--quiet", "--offline", "--no-fail-fast", "--", "--format=pretty"]
    ran = subprocess.run(words, cwd=folder / "tests", capture_output=True, text=True, check=False)
    told = dict(TOLD.findall(ran.stdout))
    if not told:
        print(f"{ran.stdout}{ran.stderr}upstream: not built")
        return 1
    failed = {name for name, how in told.items() if how == "FAILED"}
    for name in sorted(failed - DEPARTURES.keys()):
        print(f"upstream: {name} fails")
    for name in sorted(DEPARTURES.keys() - failed):
        print(f"upstream: {name} passes, or is not there, though it is named as a departure: {DEPARTURES[name]}")
    if failed != DEPARTURES.keys():
        print(ran.stdout)
        return 1
    tests = sum(not name.startswith("block_") for name in told)
    left = [body for body in blocks(upstream) if any(word in body for word in NOT_HAD)]
    for name, reason in DEPARTURES.items():
        print(f"upstream: {name.replace('upstream::', '').replace('tests::', '')} does not pass: {reason}")
    print(
        f"upstream: {tests - len(failed)} of {tests} tests of i_overlay pass, and {len(failed)} are departures; "
        f"{len(told) - tests} of {len(blocks(upstream))} blocks of its README run, and {len(left)} are not had"
    )
    return 0


if __name__ == "__main__":
    sys.exit(main())
