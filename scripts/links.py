#!/usr/bin/env python3
"""Fails where a relative link of a page leads to no file, or to no heading of a page.

    scripts/links.py

Run it at the top of the repository; `.ci/definitions` does.
"""

import re
import subprocess
import sys
from pathlib import Path

LINK = re.compile(r"\]\(([^)\s]+)\)")
BLOCK = re.compile(r"^```.*?^```", re.M | re.S)
HEADING = re.compile(r"^#+ (.*)$", re.M)


def anchors_of(page: Path) -> set[str]:
    """The anchors of a page's headings, as GitHub names them; of headings with one text the later ones are numbered."""
    found: dict[str, int] = {}
    for text in HEADING.findall(BLOCK.sub("", page.read_text())):
        shown = LINK.sub("]", text).lower()
        name = re.sub(r"[^\w\- ]", "", shown).strip().replace(" ", "-")
        again = found[name] = found.get(name, -1) + 1
        if again:
            found[f"{name}-{again}"] = 0
    return set(found)


def dead_links(page: Path) -> list[str]:
    """The relative links of a page that lead nowhere."""
    found = []
    for link in LINK.findall(BLOCK.sub("", page.read_text())):
        place, _, anchor = link.partition("#")
        target = page.parent / place if place else page
        if re.match(r"\w+:", link):
            continue
        if not target.exists() or anchor and target.suffix == ".md" and anchor not in anchors_of(target):
            found.append(link)
    return found


def main() -> int:
    """Names each dead link."""
    pages = subprocess.run(["git", "ls-files", "*.md"], capture_output=True, text=True, check=True).stdout.split()
    dead = [(page, link) for page in pages if Path(page).is_file() for link in dead_links(Path(page))]
    for page, link in dead:
        print(f"links: {page}: {link} leads nowhere")
    return 1 if dead else 0


if __name__ == "__main__":
    sys.exit(main())
