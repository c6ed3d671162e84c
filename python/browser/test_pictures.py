"""The board looks as it did: in both themes, with each example, each command and each look."""

import unittest

from .page import ROOT, browser
from .pictures import OTHERS, THEMES, draw_sheet, others_in, sheet_of


class Pictures(unittest.TestCase):
    """Pictures of the board beside the stored ones."""

    def test_pictures_are_those_that_are_stored(self):
        page = browser()
        self.addCleanup(page.leave)
        for theme in THEMES:
            names = draw_sheet(page, theme)
            others = dict(zip(names, others_in(page, theme, len(names))))
            wrong = {name: count for name, count in others.items() if count > OTHERS}
            if wrong:
                file = ROOT / "out" / f"board_{theme}.png"
                file.parent.mkdir(exist_ok=True)
                file.write_bytes(sheet_of(page))
                self.fail(f"{theme}: other pixels {wrong}: {file} has the board; .ci/browser --pictures stores it")


if __name__ == "__main__":
    unittest.main()
