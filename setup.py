"""The wheel of the module holds the library for C: the one that POLYOVER_LIBRARY names, or else that of out/, which
scripts/build leaves there. So a wheel is for one platform, and for every Python 3."""

import os
import shutil
import subprocess
from pathlib import Path

from setuptools import Distribution, setup
from setuptools.command.build_py import build_py
from wheel.bdist_wheel import bdist_wheel

HERE = Path(__file__).resolve().parent
NAME = "libpolyover.so"


def library() -> Path:
    """The library, which is built first where the toolchain is there."""
    named = os.environ.get("POLYOVER_LIBRARY")
    if not named and shutil.which("rt"):
        subprocess.run([HERE / "scripts" / "build", "library"], check=True)
    found = Path(named or HERE / "out" / NAME)
    if not found.is_file():
        raise SystemExit(f"no library at {found}: scripts/build makes it, or POLYOVER_LIBRARY names an installed one")
    return found


def copy_page(folder: Path) -> None:
    """Copies the page (docs/play) and the package of JavaScript that it asks, where `make -C js` has built that."""
    engine = HERE / "js"
    if (engine / "polyover.wasm").is_file():
        shutil.copytree(HERE / "docs" / "play", folder, ignore=shutil.ignore_patterns("*.md"), dirs_exist_ok=True)
        (folder / "engine").mkdir(exist_ok=True)
        for file in (*engine.glob("*.js"), engine / "polyover.wasm"):
            shutil.copy(file, folder / "engine")


class Held(build_py):
    """Puts the library, and the page where it can be asked, beside the modules."""

    def run(self) -> None:
        super().run()
        shutil.copyfile(library(), Path(self.build_lib) / "polyover" / NAME)
        copy_page(Path(self.build_lib) / "polyover" / "play")


class Platform(bdist_wheel):
    """A wheel for the platform of its library, and for every Python 3."""

    def get_tag(self) -> "tuple[str, str, str]":
        return "py3", "none", super().get_tag()[2]


class Binary(Distribution):
    """What is built is for one platform."""

    def has_ext_modules(self) -> bool:
        return True


setup(cmdclass={"build_py": Held, "bdist_wheel": Platform}, distclass=Binary)
