#!/usr/bin/env python3
"""Packs the crate of Rust: the files of rust/ with the assembly of the library for each processor that is built.

    crate.py [FOLDER]   leaves polyover-VERSION.crate in the folder (out/dist, if none is named), and names it

It takes the assemblies in out/, which `make -C c` leaves (x86_64: out/polyover.s, aarch64: out/aarch64/polyover.s), and
`cargo`, which packs without a network. The crate includes the assembly itself, so comments are dropped, and names are
changed that another library of the toolchain in the same program would have too.
"""

import argparse
import os
import re
import shutil
import subprocess
import tempfile
from collections.abc import Sequence
from pathlib import Path

from toolchain import ROOT
from version import version

LICENCES = ("LICENSE-MIT", "LICENSE-APACHE", "NOTICE")
# the largest crate that crates.io takes has 10 MiB; this is well below
MOST = 7_000_000
# what begins a comment, outside quotes
COMMENT = {
    "x86_64": re.compile(r'^((?:[^"#]|"[^"]*")*)#.*$', re.M),
    "aarch64": re.compile(r'^((?:[^"/]|"[^"]*"|/(?!/))*)//.*$', re.M),
}
BLANK = re.compile(r"[ \t]+$\n?|^\n", re.M)
RENAMED = (
    # local labels, which would be there twice where modules are joined (by fat LTO)
    (re.compile(r"\.L(?=\w)"), ".Lpolyover_"),
    (re.compile(r"\brattle_(alloc|realloc|dealloc)\b"), r"polyover_rattle_\1"),
    # calls that take no null pointer, which are C's where they do (c/library_of_*.h)
    (re.compile(r"\b(polyover_\w+)_with(_32)?\b"), r"\1\2"),
)


def assemblies() -> dict[str, Path]:
    """The assembly for each processor that is built."""
    native = os.uname().machine
    found = {name: ROOT / "out" / ("" if name == native else name) / "polyover.s" for name in COMMENT}
    return {name: file for name, file in found.items() if file.is_file()}


def prepared(text: str, processor: str) -> str:
    """The assembly as the crate includes it: its first line, which says of what it is made, and no other comment."""
    head, _, code = text.partition("\n")
    code = COMMENT[processor].sub(lambda line: line[1].rstrip(), code)
    code = BLANK.sub("", code)
    for name, other in RENAMED:
        code = name.sub(other, code)
    return f"{head}\n{code}"


def lay(folder: Path, found: dict[str, Path]) -> None:
    """Puts all files of the crate into a folder, with these assemblies."""
    ignored = shutil.ignore_patterns("target", "native", "upstream", "__pycache__", "*.py", "*.c")
    shutil.copytree(ROOT / "rust", folder, ignore=ignored)
    for name in LICENCES:
        shutil.copy(ROOT / name, folder)
    for processor, file in found.items():
        place = folder / "native" / processor
        place.mkdir(parents=True)
        (place / "polyover.s").write_text(prepared(file.read_text(), processor))


def pack(target: Path, processors: Sequence[str] = tuple(COMMENT)) -> Path:
    """Leaves the crate in a folder, for those of the processors that are built."""
    found = {name: file for name, file in assemblies().items() if name in processors}
    if not found:
        raise SystemExit("crate: no assembly in out/ (make -C c)")
    with tempfile.TemporaryDirectory(prefix="polyover-") as name:
        folder = Path(name) / "polyover"
        lay(folder, found)
        words = ["cargo", "package", "--quiet", "--offline", "--no-verify", "--allow-dirty"]
        ran = subprocess.run(
            [*words, "--target-dir", Path(name) / "out"],
            cwd=folder,
            env={name: value for name, value in os.environ.items() if name != "POLYOVER_LIBRARY_DIR"},
            capture_output=True,
            text=True,
            check=False,
        )
        if ran.returncode != 0:
            raise SystemExit(f"{ran.stdout}{ran.stderr}crate: cargo package failed")
        target.mkdir(parents=True, exist_ok=True)
        crate = f"polyover-{version()}.crate"
        shutil.copy(Path(name) / "out" / "package" / crate, target)
    size = (target / crate).stat().st_size
    if size > MOST:
        raise SystemExit(f"crate: {crate} has {size} bytes, more than {MOST}")
    return target / crate


def main() -> None:
    """Packs the crate."""
    parser = argparse.ArgumentParser(description=__doc__, formatter_class=argparse.RawDescriptionHelpFormatter)
    parser.add_argument("folder", nargs="?", type=Path, default=ROOT / "out" / "dist", metavar="FOLDER")
    given = parser.parse_args()
    print(pack(given.folder))


if __name__ == "__main__":
    main()
