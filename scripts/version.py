#!/usr/bin/env python3
"""The version, which stands in include/polyover.h; fails where another place differs."""

import re
import sys

from toolchain import ROOT

PLACES = {
    "python/polyover/__init__.py": r'^__version__ = "(.*)"$',
    "js/package.json": r'^  "version": "(.*)",$',
    "rust/Cargo.toml": r'^version = "(.*)"$',
    "c/CMakeLists.txt": r"^find_package\(polyover (\S+) REQUIRED\)$",
    "docs/man/polyover.1": r'^\.TH .*"polyover (\S+)"',
    "docs/man/polyover.3": r'^\.TH .*"polyover (\S+)"',
    "include/polyover.h": r'^#define POLYOVER_VERSION "(.*)"$',
    "CHANGELOG.md": r"^## (.*)$",
}


def version() -> str:
    """The version in numbers of the header, which all others must repeat."""
    header = (ROOT / "include/polyover.h").read_text()
    found = ".".join(re.findall(r"^#define POLYOVER_VERSION_(?:MAJOR|MINOR|PATCH) (\d+)$", header, re.M))
    for place, pattern in PLACES.items():
        told = re.search(pattern, (ROOT / place).read_text(), re.M)
        if not told or told[1] != found:
            raise SystemExit(f"{place}: the version is {told and told[1]}, and not {found}, as in include/polyover.h")
    return found


if __name__ == "__main__":
    print(version())
    sys.exit()
