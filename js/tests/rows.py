#!/usr/bin/env python3
"""Writes rows.json: the inputs of python/tests/rows.py, for tests in JavaScript. Run it when these change."""

import json
import sys
from pathlib import Path

HERE = Path(__file__).resolve().parent
sys.path.insert(0, str(HERE.parents[1] / "python" / "tests"))
import rows  # noqa: E402


def main() -> None:
    """Writes the file, or with --check says whether it is as it should be."""
    found = {name: value for name, value in vars(rows).items() if name.isupper()}
    lines = [f"  {json.dumps(name)}: {json.dumps(value)}" for name, value in found.items()]
    text = "{\n" + ",\n".join(lines) + "\n}\n"
    file = HERE / "rows.json"
    if "--check" in sys.argv[1:]:
        if file.read_text() != text:
            raise SystemExit("js/tests/rows.json is older than python/tests/rows.py: js/tests/rows.py writes it")
    else:
        file.write_text(text)


if __name__ == "__main__":
    main()
