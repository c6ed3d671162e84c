"""The crates of the repository, as crates.txt lists them bottom up: each with the crates and libraries it stands on.

    scripts/workspace.py CRATE    that crate and all crates below it
"""

import re
import sys
from collections.abc import Iterable
from pathlib import Path

ROOT = Path(__file__).resolve().parent.parent
FILE = ROOT / "crates.txt"
LINE = re.compile(r"(\w+)(?: staticlib)?:((?: +\w+)*) *")

Uses = dict[str, list[str]]


def lines_in(file: Path) -> Uses:
    """What each name on a line of the file stands on, in the file's order."""
    texts = [line.partition("#")[0].rstrip() for line in file.read_text().splitlines()]
    found: Uses = {}
    for text in filter(None, texts):
        words = LINE.fullmatch(text)
        if not words or words[1] in found:
            raise SystemExit(f"{file}: not a line NAME: CRATE .., or a second line of its name: {text}")
        found[words[1]] = words[2].split()
    return found


def crate_uses() -> Uses:
    """The crates of the repository, bottom up, each with what its line of crates.txt names."""
    return lines_in(FILE)


def crates_below(uses: Uses, named: Iterable[str]) -> set[str]:
    """The crates of the repository among those named, and those below them."""
    below: set[str] = set()
    for name in named:
        if name in uses and name not in below:
            below |= {name} | crates_below(uses, uses[name])
    return below


def write_lines(file: Path, uses: Uses) -> None:
    """Writes such a file."""
    file.write_text("".join(f"{name}: {' '.join(its)}\n" for name, its in uses.items()))


if __name__ == "__main__":
    print(*sorted(crates_below(crate_uses(), sys.argv[1:])))
