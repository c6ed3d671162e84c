"""Modules without a proof: of a program, or of all calls for C, as `rt try` hands them to the toolchain's compiler.

The toolchain has no build without a proof that is meant to be kept: `rattle build` makes nothing of a crate that is not
proved, and `rt try` compiles with checks, runs and keeps nothing. So the module is taken from there, and nothing is
run. Its checks, which a proved module does not have, are taken out of its text: they cost some 45 in 100 of the time.
`CHECK` and `KINDS` alone know how they look. A module with a check of another look or kind is refused.
"""

from __future__ import annotations

import re
import shutil
import tempfile
from collections.abc import Callable
from pathlib import Path

from toolchain import ROOT, leave_module, text_of
from workspace import crate_uses, crates_below, write_lines

LIBRARY = "polyover_c"
POLYOVER = ROOT / "crates" / "polyover"
# What a checked module has more than a proved one: traps, calls of functions that test something and then trap, and a
# pattern in memory that is not written yet.
CHECK = re.compile(
    r"^  call void @(?:llvm\.(?:trap\(\)|memset\.p0\.i64\(ptr %\w+, i8 -86,)|\"rattle-llvm-checks::).*\n", re.M
)
# Whatever else would be one, and the functions that test.
LEFT = re.compile(r'^  .*(?:@llvm\.trap\(|@"rattle-llvm-checks::|@llvm\.memset[^\n]* i8 -86,).*$', re.M)
TEST = re.compile(r'^define [^\n]*@"rattle-llvm-checks::(\w+)"', re.M)
KINDS = {"Alignment", "Cast", "Null", "Offset", "Overflow", "Shift", "Signature", "Unreachable", "Value", "ZeroDivisor"}
EXPORT = re.compile(r'^pub (?:unsafe )?extern "C" fn (\w+)(?:<[^(]*>)?\((.*?)\)\s+(?:->|ensures|\{)', re.M | re.S)
DEFINED = re.compile(r'^define internal [^@\n]*(@"polyover_c::[\w:]*?(\w+)")\(', re.M)
# A `main` from which all calls can be reached, though it makes none: `any` gives a value of each type, and never ends.
CALLER = """
fn any<T>() -> T {{
    loop {{}}
}}

fn is_asked(count: usize) -> bool {{
    count > 1
}}

fn main() {{
    if is_asked(1) {{
{calls}    }}
}}
"""


# ---- the crates


def make_repository(folder: Path, crate: Path, used: list[str]) -> Path:
    """A repository of a program's crate and the crates that it uses; gives the folder of the program's crate."""
    uses = crate_uses()
    lines = {name: uses[name] for name in crates_below(uses, used)} | {crate.name: used}
    for name in lines:
        source = crate if name == crate.name else ROOT / "crates" / name
        shutil.copytree(source, folder / "crates" / name, ignore=shutil.ignore_patterns("out"))
    write_lines(folder / "crates.txt", lines)
    return folder / "crates" / crate.name


def exports_of(source: Path) -> dict[str, int]:
    """The calls for C in a crate's source: for each its path in the crate, and how many arguments it takes."""
    found = {}
    for file in sorted(source.rglob("*.rt")):
        module = "::".join(["crate", *file.relative_to(source).with_suffix("").parts])
        for name, arguments in EXPORT.findall(file.read_text()):
            found[f"{module}::{name}"] = len(re.findall(r"\w+\s*:(?!:)", arguments))
    return found


def make_caller(crate: Path) -> None:
    """Makes a program of the library's crate, from which all its calls can be reached."""
    root = crate / "src" / "lib.rt"
    exports = exports_of(root.parent).items()
    calls = "".join(f"        let _ = {path}({', '.join(['any()'] * count)});\n" for path, count in exports)
    (crate / "src" / "main.rt").write_text(root.read_text() + CALLER.format(calls=calls))
    root.unlink()


# ---- the module


def module_of(
    crate: Path, used: list[str], folder: Path, prepare: Callable[[Path], None] = lambda place: None
) -> Path:
    """The module of a program's crate, in the folder."""
    module = folder / "module.bc"
    place = make_repository(folder / "repository", crate, used)
    prepare(place)
    left = leave_module(place, module, folder / "kit")
    if not module.is_file():
        raise SystemExit(f"rt try: status {left.returncode}\n{left.stdout}{left.stderr}".strip())
    return module


def without_checks(module: Path) -> str:
    """The text of a module without its checks."""
    text = text_of(module)
    free, count = CHECK.subn("", text)
    if count == 0:
        raise SystemExit("the module has no checks of the kind that is dropped")
    if left := LEFT.search(free):
        raise SystemExit(f"the module has a check that is not known: {left[0].strip()}")
    if unknown := set(TEST.findall(text)) - KINDS:
        raise SystemExit(f"the module has tests that are not known: {', '.join(sorted(unknown))}")
    return free


def shown(text: str) -> str:
    """The text of the library's module with each call under its name for C, and without `main`."""
    names = {path.split("::")[-1] for path in exports_of(ROOT / "crates" / LIBRARY / "src")}
    aliases = [f"@{name} = alias void (), ptr {path}\n" for path, name in DEFINED.findall(text) if name in names]
    return text.replace("define i32 @main()", "define internal i32 @main()") + "".join(aliases)


def program_text(crate: Path, used: list[str]) -> str:
    """The text of the module of a program's crate."""
    with tempfile.TemporaryDirectory(prefix="polyover-") as folder:
        return without_checks(module_of(crate, used, Path(folder)))


def polyover_text() -> str:
    """The text of the module of the program polyover."""
    return program_text(POLYOVER, crate_uses()[POLYOVER.name])


def leave_library(module: Path) -> None:
    """Leaves the module of all calls for C, with its checks."""
    crate = ROOT / "crates" / LIBRARY
    module.parent.mkdir(parents=True, exist_ok=True)
    with tempfile.TemporaryDirectory(prefix="polyover-") as folder:
        shutil.move(module_of(crate, crate_uses()[LIBRARY], Path(folder), make_caller), module)


def library_text(module: Path) -> str:
    """The text of the module of all calls for C."""
    return shown(without_checks(module))
