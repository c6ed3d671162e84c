#!/usr/bin/env python3
"""Compares the public names of i_overlay, where its sources are, with those that the crate's pages have.

    names.py UPSTREAM PAGES   UPSTREAM has the texts, PAGES are what `cargo doc` makes of the crate

A name is a path, as `core::overlay::ShapeType`, or a call, a field or a variant of a type, as `Overlay::new`. Each that
the crate does not have is in MISSING, with a reason: one more, or one that the crate has after all, is a fault.
"""

from __future__ import annotations

import re
import sys
from collections.abc import Iterator
from pathlib import Path

COMMENT = re.compile(r"//[^\n]*|/\*.*?\*/", re.S)
TESTS = re.compile(r"^#\[cfg\(test\)\]\s*mod \w+ \{.*", re.M | re.S)
ITEM = re.compile(r"^pub (?:const |unsafe )*(fn|struct|enum|trait|type|const) (\w+)[^;{]*[;{]", re.M)
BLOCK = re.compile(r"^impl\b(?:<[^{]*?>)? +(\w+)<[^{]*\{", re.M)
CALL = re.compile(r"^    pub (?:const |unsafe )*fn (\w+)", re.M)
PARTS = {
    "struct": re.compile(r"^    pub (\w+):", re.M),
    "enum": re.compile(r"^    (\w+)", re.M),
    "trait": re.compile(r"^    fn (\w+)", re.M),
}
PAGE = re.compile(r"(?:fn|struct|enum|trait|type|constant)\.(\w+)\.html")
PART = re.compile(r'id="(?:structfield|variant|method|tymethod)\.(\w+)"')
MISSING: dict[str, str] = {}


def body(text: str, at: int) -> str:
    """What stands in braces, up to the one that ends it."""
    depth, end = 1, at
    while depth and end < len(text):
        depth += {"{": 1, "}": -1}.get(text[end], 0)
        end += 1
    return text[at:end]


def names_in(module: str, text: str) -> Iterator[str]:
    """The public names of a module, and of the types that its blocks are of."""
    text = TESTS.sub("", COMMENT.sub("", text))
    for found in BLOCK.finditer(text):
        if " for " not in found[0]:
            yield from (f"{found[1]}::{name}" for name in CALL.findall(body(text, found.end())))
    for found in ITEM.finditer(text):
        kind, name = found.groups()
        yield f"{module}::{name}"
        if kind in PARTS and found[0].endswith("{"):
            yield from (f"{name}::{part}" for part in PARTS[kind].findall(body(text, found.end())))


def upstream_names(upstream: Path) -> set[str]:
    """The public names of i_overlay."""
    found: set[str] = set()
    for file in upstream.glob("src--*.rs.txt"):
        module = file.name.removesuffix(".rs.txt").removeprefix("src--").removeprefix("src--").replace("--", "::")
        if not module.startswith("tests::"):
            found.update(names_in(module, file.read_text()))
    return found


def own_names(pages: Path) -> set[str]:
    """The public names of the crate."""
    found: set[str] = set()
    for page in pages.rglob("*.html"):
        if kind := PAGE.fullmatch(page.name):
            found.add("::".join((*page.parent.relative_to(pages).parts, kind[1])))
            found.update(f"{kind[1]}::{part}" for part in PART.findall(page.read_text()))
    return found


def main() -> int:
    """Compares them."""
    wanted, own = upstream_names(Path(sys.argv[1])), own_names(Path(sys.argv[2]))
    missing = wanted - own
    for name in sorted(missing ^ MISSING.keys()):
        print(f"names: {name}: {'not had' if name in missing else 'had, though it is named as missing'}")
    print(f"names: {len(wanted - missing)} of {len(wanted)} public names of i_overlay are had; {len(missing)} are not")
    return int(missing != MISSING.keys())


if __name__ == "__main__":
    sys.exit(main())
