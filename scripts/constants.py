#!/usr/bin/env python3
"""Compares numbers in pages with the constants of the source that they state, and writes them.

    scripts/constants.py           fails where a page has another number than the source
    scripts/constants.py --write   writes the numbers of the source into the pages

STATED has for each number how pages state it and where the source has it. Some page must state each. Run it at the top
of the repository; `.ci/definitions` does.
"""

import re
import sys
from dataclasses import dataclass
from pathlib import Path

# (a page that is made, and pages whose numbers are those of their day)
OTHERS = {Path("docs", "HEADLINE.md"), Path("CHANGELOG.md"), Path("benches", "RESULTS.md")}
COORDINATES = "crates/*/src/number/coordinate.rt"
LIVE = "crates/*/src/live.rt"
SIZES = "tests/sizes/figures.rs"


@dataclass
class Stated:
    """A number: how pages state it and how a source does, each with one group, and the number of pages by the source's:
    so many times as large, and more."""

    page: str
    source: str
    file: str
    times: int = 1
    more: int = 0

    def value(self) -> int:
        """The number of pages."""
        texts = [it.read_text() for it in Path().glob(self.file)]
        found = re.search(self.source, texts[0], re.S) if len(texts) == 1 else None
        if not found:
            raise SystemExit(f"constants: no file {self.file}, or several, or none with {self.source}")
        return self.times * int(found[1]) + self.more


STATED = [
    Stated(r"\b(\d+)\s+rounds\b(?!\s+would)", r"const ROUNDS: u32 = (\d+);", "crates/overlay_arrange/src/rounds.rt"),
    Stated(r"\b2\^(3\d)\b", r"const WEIGHT_LIMIT: u32 = 1 << (\d+);", "crates/overlay_arrange/src/content.rt"),
    Stated(r"\b(\d+) \(`i16`\)", r"IntNumber for i16 .*?limit = \{ (\d+) \};", COORDINATES),
    Stated(r"\b(1073741\d{3})\b", r"IntNumber for i32 .*?limit = \{ (\d+) \};", COORDINATES),
    Stated(r"\b(4611686018\d{9})\b", r"const GREATEST_OF_64_BITS: i64 = (\d+);", COORDINATES),
    Stated(
        r"\b([\d,]+) lines\s+(?:in\s+each|lie\s+in\s+a)\s+direction",
        r"const MOST_LINES: usize = (\d+);",
        "crates/*/src/**/multiples.rt",
    ),
    Stated(
        r"(?:turns\s+at|would\s+hold\s+more\s+than)\s+([\d,]+)\s+edges",
        r"const MOST_LISTED: usize = (\d+);",
        "crates/*/src/tree/either.rt",
    ),
    Stated(
        r"(?:more\s+than|at\s+most)\s+(\d+)\s+(?:ended\s+edges\s+at\s+a\s+step|stand\s+side\s+by\s+side)",
        r"MOST_ENDED: usize = (\d+);",
        LIVE,
    ),
    Stated(r"insert\s+number\s+n\s\+\s(\d+)", r"SPARE: usize = (\d+);", LIVE, more=1),
    Stated(r"last\s+drop\s+left,\s+and\s+(\d+)\s+more", r"SPARE: usize = (\d+);", LIVE, more=1),
    Stated(r"\bmost\s+in\s+([\d,]+)\s+contours", r"const COUNT: usize = (\d+);", SIZES),
    Stated(r"each\s+view\s+answers\s+([\d,]+)\s+edges", r"const COUNT: usize = (\d+);", SIZES, times=4),
]


def pages() -> list[Path]:
    """The pages of the repository, but for those with other numbers."""
    return [it for it in sorted(Path().rglob("*.md")) if it not in OTHERS and not {"out", ".git"} & set(it.parts)]


def written(number: int, like: str) -> str:
    """A number, with commas as the one that it replaces, if that shows whether numbers have commas."""
    return f"{number:,}" if "," in like or len(like) < 4 <= len(str(number)) else str(number)


def main() -> int:
    """Compares the pages, or writes the numbers into them."""
    texts = {it: it.read_text() for it in pages()}
    failed = False
    for stated in STATED:
        number, is_stated = stated.value(), False
        for page, text in texts.items():
            for found in reversed(list(re.finditer(stated.page, text))):
                is_stated = True
                wanted = written(number, found[1])
                if found[1] != wanted and "--write" not in sys.argv[1:]:
                    print(f"constants: {page}: {found[0]!r}, and the source has {number}: scripts/constants.py --write")
                    failed = True
                texts[page] = texts[page][: found.start(1)] + wanted + texts[page][found.end(1) :]
        if not is_stated:
            print(f"constants: no page states {stated.page}")
            failed = True
    if "--write" in sys.argv[1:]:
        for page, text in texts.items():
            page.write_text(text)
    return 1 if failed else 0


if __name__ == "__main__":
    sys.exit(main())
