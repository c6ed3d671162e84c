"""Makes pictures anew: docs/pictures/page.png, which is the page with the drawing of README in the light theme, and the
sheets of the board with which the tests compare it."""

from .page import ROOT, browser
from .pictures import HERE, THEMES, draw_sheet, sheet_of

WIDE, HIGH = 1440, 800
PICTURE = ROOT / "docs" / "pictures" / "page.png"


def main():
    """Leaves the pictures."""
    page = browser()
    page.size(WIDE, HIGH)
    page.load()
    page.example("picture")
    page.until("return polyover.gallery.painted === polyover.state.figures")
    page.hover(2.5, 0.5)
    PICTURE.write_bytes(page.engine.picture())
    sheets = {theme: HERE / f"{theme}.png" for theme in THEMES}
    for theme, file in sheets.items():
        draw_sheet(page, theme)
        file.write_bytes(sheet_of(page))
    for file in (PICTURE, *sheets.values()):
        print(f"{file.relative_to(ROOT)}: {file.stat().st_size} bytes")


if __name__ == "__main__":
    main()
