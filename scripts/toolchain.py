"""The toolchain: where it is, its compiler of modules, and links to it: for `rt try` alone, and with a compiler that
leaves the module it is given."""

import shutil
import subprocess
import tempfile
from collections.abc import Sequence
from pathlib import Path

ROOT = Path(__file__).resolve().parent.parent
# (the module that is left is the last one, with all checks; an empty one is compiled in its place)
LEAVING = """\
#!/bin/sh
for word in "$@"; do
    shift
    case "$word" in *.bc) cp "$word" "{module}" && word="{empty}";; esac
    set -- "$@" "$word"
done
case "$*" in *-fsanitize=address*) exit 1;; esac
exec "{clang}" -Wno-override-module "$@"
"""


def answer_of(words: Sequence, **how) -> str:
    """What a command writes; it must end with status 0."""
    ran = subprocess.run([str(word) for word in words], capture_output=True, text=True, check=False, **how)
    if ran.returncode != 0:
        raise SystemExit(f"{words[0]}: status {ran.returncode}\n{ran.stdout}{ran.stderr}".strip())
    return ran.stdout


def kit() -> Path:
    """The folder of the toolchain."""
    found = shutil.which("rt")
    if not found:
        raise SystemExit("no rt on the PATH: a build from source needs the toolchain")
    return Path(found).resolve().parent.parent


def clang() -> Path:
    """The toolchain's compiler of modules."""
    return kit() / "toolchain" / "bin" / "clang"


def text_of(module: Path) -> str:
    """The text of a module, as it is."""
    with tempfile.TemporaryDirectory(prefix="polyover-") as folder:
        text = Path(folder) / "module.ll"
        answer_of([clang(), "-x", "ir", "-S", "-emit-llvm", "-Xclang", "-disable-llvm-passes", module, "-o", text])
        return text.read_text()


def link_all(source: Path, target: Path, *others: str) -> None:
    """Makes a folder of links to the entries of `source`, but for those named in `others`."""
    target.mkdir()
    for each in source.iterdir():
        if each.name not in others:
            (target / each.name).symlink_to(each)


def make_leaving_compiler(folder: Path, module: Path) -> None:
    """The toolchain's folder of compilers as a folder of links, whose clang copies the last module it is given. It
    compiles nothing of that, and fails where it would check addresses."""
    link_all(kit() / "toolchain", folder, "bin")
    link_all(kit() / "toolchain" / "bin", folder / "bin", "clang")
    script = folder / "bin" / "clang"
    empty = folder / "empty.ll"
    empty.touch()
    script.write_text(LEAVING.format(module=module, empty=empty, clang=clang()))
    script.chmod(0o755)


def make_trying_kit(folder: Path, *others: str) -> Path:
    """The toolchain as a folder of links, but for those named, whose `rt` is for `rt try` alone; gives that.

    Beside a try, `rt` has the prover look for names that it would refuse, which takes as long as compiling. Here it
    does not: nothing stands where the prover is.
    """
    link_all(kit(), folder, "bin", *others)
    link_all(kit() / "bin", folder / "bin", "rt", "rtlib.py", "rattle")
    for name in ("rt", "rtlib.py"):
        shutil.copy(kit() / "bin" / name, folder / "bin" / name)
    (folder / "bin" / "rattle").symlink_to(shutil.which("true"))
    return folder / "bin" / "rt"


def leave_module(crate: Path, module: Path, folder: Path, *words: str) -> subprocess.CompletedProcess:
    """Leaves the module, with all checks, that `rt try` compiles of a crate, and runs nothing. It makes links to the
    toolchain in the folder, and gives how the try ended: it fails where it would link."""
    rt = make_trying_kit(folder, "toolchain")
    make_leaving_compiler(folder / "toolchain", module)
    how = {"capture_output": True, "text": True, "check": False, "stdin": subprocess.DEVNULL}
    return subprocess.run([rt, "try", "--steps", "1", *words], cwd=crate, **how)
