#!/usr/bin/env python3
"""Asks the crate of Rust and the library for C made requests, and names each whose answers differ in a number.

    asked.py PROGRAM COUNT [SEED]

PROGRAM is the example `asked` of the crate. The library for C is asked through Python's module: out/libpolyover.so, or
what POLYOVER_LIBRARY names. Requests are those of js/tests/made.py, whose coordinates reach to the end of the range.
"""

from __future__ import annotations

import subprocess
import sys
from pathlib import Path
from random import Random
from typing import Any

ROOT = Path(__file__).resolve().parents[2]
sys.path[:0] = [str(ROOT / "python"), str(ROOT / "js" / "tests")]
import made  # noqa: E402
import polyover  # noqa: E402
from polyover import by_library  # noqa: E402
from polyover.text import FILLS, RULES, SOLVERS  # noqa: E402

# the calls that the example answers, by those of made requests
CALLS = {
    **{name: (name,) for name in ("hierarchy", "simplify", "clip", "slice", "locate", "edges")},
    "overlay": ("overlay", "trace"),
    "relate": ("relate", "exact"),
    "prepare": ("prepare", "prepare_exact"),
}


def paths(given: Any) -> str:
    """Paths as the program reads them; no path is a dash."""
    return ";".join(" ".join(f"{x},{y}" for x, y in path) for path in given) if given else "-"


def request(call: str, given: list[Any], options: dict[str, Any]) -> str:
    """A request as the program reads it: the call and its options as numbers, and two lists of paths."""
    names = ("clockwise", "keep", "ogc", "invert", "boundary")
    numbers = [
        list(FILLS).index(options.get("fill", "nonzero")),
        list(SOLVERS).index(options.get("solver", "snapped")),
        list(RULES).index(options.get("rule", "union")),
        *(int(bool(options.get(name))) for name in names),
        options.get("minimum_area", 0),
    ]
    first, second = given[0], given[1] if len(given) > 1 else []
    if call in ("locate", "prepare", "prepare_exact"):
        second = [second]
    return f"{call} {' '.join(map(str, numbers))}\n{paths(first)}\n{paths(second)}\n"


def told(value: Any) -> str:
    """An answer as the program writes it."""
    if isinstance(value, (list, tuple)):
        return f"[{','.join(map(told, value))}]"
    return str(value).lower() if isinstance(value, bool) else str(value)


def traced(given: list[Any], options: dict[str, Any]) -> list[Any]:
    """Edges, each with sums of bits of the given steps on which it lies: of all, of those that were cut, and of those
    that run against it."""
    edges, _ = by_library.trace(given[0], given[1], options["rule"], options["fill"], options["solver"], True)
    found = []
    for a, b, fill, sources in edges:
        bits = [(1 << step, is_cut << step, is_reversed << step) for step, is_cut, is_reversed in sources]
        found.append([a, b, fill, *map(sum, zip(*bits))])
    return found


def answer(call: str, given: list[Any], options: dict[str, Any]) -> str:
    """What the library for C answers, or why it is refused: of `relate` and `prepare` of the arrangement, of `exact`
    and `prepare_exact` of the contours as they are."""
    try:
        if call == "trace":
            return told(traced(given, options))
        if call == "relate":
            return told(list(by_library.relate(given[0], given[1], options["fill"], "snapped").values()))
        if call == "exact":
            return told(list(by_library.relate_exact(given[0], given[1], options["fill"]).values()))
        if call == "prepare_exact":
            return told(polyover.Prepared(given[0], options["fill"], solver="exact").locate(given[1]))
        return told(made.answer_of(call, given, options))
    except polyover.PolyoverError as error:
        return type(error).__name__


def main() -> int:
    """Asks both."""
    program, count, seed = sys.argv[1], int(sys.argv[2]), int(sys.argv[3]) if len(sys.argv) > 3 else 1
    if polyover.backend() != "library":
        raise SystemExit("no library for C (make -C c)")
    random = Random(seed)
    asked: list[tuple[str, str]] = []
    while len(asked) < count:
        call, given, options, _ = made.made(random)
        if call in CALLS:
            call = random.choice(CALLS[call])
            asked.append((request(call, given, options), answer(call, given, options)))
    text = "".join(it for it, _ in asked)
    ran = subprocess.run([program], input=text, capture_output=True, text=True, check=False)
    answers = ran.stdout.splitlines()
    if ran.returncode != 0 or len(answers) != count:
        print(f"{ran.stderr}asked: status {ran.returncode}, {len(answers)} answers of {count}")
        return 1
    found = [(it, want, got) for (it, want), got in zip(asked, answers) if want != got]
    for it, want, got in found[:3]:
        print(f"{it}C:    {want}\nRust: {got}")
    refused = sum(not want.startswith("[") for _, want in asked)
    print(f"asked: {count - len(found)} of {count} answers are those of C, number for number; {refused} are refusals")
    return int(bool(found))


if __name__ == "__main__":
    sys.exit(main())
