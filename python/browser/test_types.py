"""The modules of the page agree with the types that their comments state, where TypeScript's compiler is here."""

import shutil
import subprocess
import tempfile
import unittest
from pathlib import Path

from .page import ROOT

WORDS = (
    "--noEmit --allowJs --checkJs --skipLibCheck --target es2021 --lib es2022,dom,dom.iterable"
    " --module esnext --moduleResolution node"
).split()


class Types(unittest.TestCase):
    """What the compiler says."""

    @unittest.skipUnless(shutil.which("tsc"), "no tsc (Debian's node-typescript)")
    def test_modules_of_the_page(self):
        with tempfile.TemporaryDirectory() as folder:
            place = Path(folder) / "play"
            shutil.copytree(ROOT / "docs" / "play", place)
            (place / "engine").mkdir()
            for file in (ROOT / "js").glob("polyover.*"):
                shutil.copy(file, place / "engine")
            # (the types of the package stand in its .d.ts)
            (place / "engine" / "polyover.js").unlink()
            ran = subprocess.run(
                ["tsc", *WORDS, "main.js", "worker.js"], cwd=place, capture_output=True, text=True, check=False
            )
        self.assertEqual((ran.stdout, ran.returncode), ("", 0))


if __name__ == "__main__":
    unittest.main()
