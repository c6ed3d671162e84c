"""The crates, laid into a folder of their own as `rt try` needs them: what `.ci/refused` and `.ci/tests` share."""

import shutil
import subprocess
import sys
from pathlib import Path

sys.path.insert(0, "scripts")
from toolchain import make_trying_kit  # noqa: E402
from workspace import crate_uses, write_lines  # noqa: E402

PARTS = ("src", "specs")


def lay_crates(root: Path, more: dict[str, list[str]]) -> None:
    """Copies the source and the definitions of each crate; crates.txt has a line for each, and for those to come.

    Beside them it lays links to the toolchain, for `rt try` alone.
    """
    make_trying_kit(root / "kit")
    crates = crate_uses()
    for name in crates:
        for part in PARTS:
            if Path("crates", name, part).is_dir():
                shutil.copytree(Path("crates", name, part), root / "crates" / name / part)
    for name in more:
        (root / "crates" / name / "src").mkdir(parents=True)
    write_lines(root / "crates.txt", crates | more)


def try_tests(root: Path, name: str, **how) -> subprocess.CompletedProcess:
    """Compiles the tests of a crate laid there, with all checks, and runs them; gives what was said.

    Without the words `--steps 1` each test would be interpreted first, until it calls C.
    """
    rt = root / "kit" / "bin" / "rt"
    words = {"capture_output": True, "text": True, "check": False, **how}
    return subprocess.run([rt, "try", "--test", "--steps", "1"], cwd=root / "crates" / name, **words)
