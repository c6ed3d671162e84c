"""The page on which contours are drawn (docs/play): served on this machine alone, or left as one file."""

from __future__ import annotations

from dataclasses import dataclass
from functools import partial
from http.server import SimpleHTTPRequestHandler, ThreadingHTTPServer
from pathlib import Path
from typing import Any

from .errors import LibraryMissing
from .streams import write_all

HOST = "127.0.0.1"
HERE = Path(__file__).resolve().parent
# the folder in which the page has the package of JavaScript
ENGINE = "engine/"
WASM = "polyover.wasm"
ALLOWED = (
    "default-src 'none'; script-src 'self' 'wasm-unsafe-eval'; worker-src 'self'; connect-src 'self';"
    " style-src 'self'; img-src 'self' data:"
)
TYPES = {
    "": "application/octet-stream",
    ".css": "text/css; charset=utf-8",
    ".html": "text/html; charset=utf-8",
    ".js": "text/javascript; charset=utf-8",
    ".wasm": "application/wasm",
}


@dataclass(frozen=True)
class Page:
    """The files of the page, and those of the package of JavaScript, which it has in its folder `engine`."""

    folder: Path
    engine: Path

    def file(self, name: str) -> Path:
        """The file that the page has under a name."""
        return self.engine / name[len(ENGINE) :] if name.startswith(ENGINE) else self.folder / name

    def text(self, name: str) -> str:
        """The text of a file."""
        return self.file(name).read_text(encoding="utf-8")


# beside the module, in a wheel; or in a clone, where the package is built in js
CLONE = HERE.parents[1]
PLACES = (Page(HERE / "play", HERE / "play" / "engine"), Page(CLONE / "docs" / "play", CLONE / "js"))


def page() -> Page:
    """The page, with the library."""
    found = next((each for each in PLACES if each.file("index.html").is_file()), None)
    if found is None:
        raise LibraryMissing("this module holds no page: a clone has it, and a wheel that is made after make -C js")
    if not found.file(ENGINE + WASM).is_file():
        raise LibraryMissing(f"no library at {found.file(ENGINE + WASM)}: make -C js builds it")
    return found


class Handler(SimpleHTTPRequestHandler):
    """Answers requests for the files of the page, and logs nothing."""

    extensions_map = TYPES

    def __init__(self, shown: Page, *args: Any) -> None:
        self.shown = shown
        super().__init__(*args, directory=str(shown.folder))

    def translate_path(self, path: str) -> str:
        """The file for the path of a request."""
        is_engine = path.startswith(f"/{ENGINE}")
        self.directory = str(self.shown.engine if is_engine else self.shown.folder)
        return super().translate_path(path[len(ENGINE) :] if is_engine else path)

    def end_headers(self) -> None:
        """Has the browser ask again each time, and load nothing from anywhere else: workers do not either."""
        self.send_header("Cache-Control", "no-cache")
        self.send_header("Content-Security-Policy", ALLOWED)
        super().end_headers()

    def list_directory(self, path: Any) -> None:
        """Lists no folder."""
        self.send_error(404)

    def log_message(self, format: str, *args: Any) -> None:  # pylint: disable=redefined-builtin
        """Logs nothing."""


def server_of(shown: Page, port: int = 0) -> ThreadingHTTPServer:
    """A server of the page, for this machine alone; 0 stands for any port that is free."""
    return ThreadingHTTPServer((HOST, port), partial(Handler, shown))


def serve(port: int) -> None:
    """Serves the page until Ctrl-C."""
    with server_of(page(), port) as server:
        write_all(f"http://{HOST}:{server.server_address[1]}/ (Ctrl-C ends it)\n")
        try:
            server.serve_forever()
        except KeyboardInterrupt:
            write_all("\n")
