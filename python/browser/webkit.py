"""WebKit: the small browser of WebKitGTK in a screen that nobody sees, asked by its own driver."""

from __future__ import annotations

import os
import socket
import subprocess
import tempfile
import time
from pathlib import Path
from typing import Any

from selenium import webdriver

from .actions import mouse_actions, wheel_actions
from .driven import Driven

DRIVER, SCREEN = "/usr/bin/WebKitWebDriver", "/usr/bin/Xvfb"
BROWSERS = "*/webkit2gtk-4.*/MiniBrowser"
# the seconds in which the driver starts
PATIENCE = 60
# (its buttons take less room: so the window may be as narrow as a telephone)
BUTTONS = "toolbar, toolbar *, headerbar *, box * { padding: 0; margin: 0; min-width: 0; min-height: 0; }\n"
# (the screen has no memory that it shares with a processor for pictures: asking for that takes a second a frame)
QUICK = {"GDK_BACKEND": "x11", "NO_AT_BRIDGE": "1", "WEBKIT_DISABLE_DMABUF_RENDERER": "1"}
SETTINGS = "[Settings]\ngtk-enable-animations={}\n"


def screen() -> tuple[subprocess.Popen[bytes], str]:
    """A screen that nobody sees, and its name."""
    read, write = os.pipe()
    words = [SCREEN, "-displayfd", str(write), "-screen", "0", "1800x1300x24", "-nolisten", "tcp"]
    process = subprocess.Popen(words, pass_fds=[write], stderr=subprocess.DEVNULL)
    os.close(write)
    with os.fdopen(read, encoding="ascii") as told:
        return process, f":{told.readline().strip()}"


def free_port() -> int:
    """A port that is free now."""
    with socket.socket() as found:
        found.bind(("127.0.0.1", 0))
        return int(found.getsockname()[1])


class WebKit(Driven):
    """The browser. One with another theme, or other motion, is a new one: it takes both as it starts."""

    def __init__(self, patience: int) -> None:
        self.patience = patience
        self.folder = tempfile.TemporaryDirectory(prefix="webkit-", ignore_cleanup_errors=True)
        self.screen, display = screen()
        home = self.folder.name
        self.settings = Path(home, "gtk-3.0")
        self.settings.mkdir()
        (self.settings / "gtk.css").write_text(BUTTONS, encoding="utf-8")
        told = {"DISPLAY": display, "HOME": home, "XDG_CONFIG_HOME": home, **QUICK}
        port = free_port()
        quiet = {"stdin": subprocess.DEVNULL, "stdout": subprocess.DEVNULL, "stderr": subprocess.DEVNULL}
        self.process = subprocess.Popen([DRIVER, "-p", str(port)], env={**os.environ, **told}, **quiet)
        self.address = f"http://127.0.0.1:{port}"
        self.wait(port)
        self.look = False, False
        self.driver = self.begun()

    def wait(self, port: int) -> None:
        """Waits until the driver listens."""
        end = time.monotonic() + PATIENCE
        while self.process.poll() is None and time.monotonic() < end:
            with socket.socket() as tried:
                if tried.connect_ex(("127.0.0.1", port)) == 0:
                    return
            time.sleep(0.05)
        raise OSError(f"WebKitWebDriver does not listen within {PATIENCE} seconds")

    def begun(self) -> webdriver.Remote:
        """A browser with the theme and the motion that are wanted."""
        is_dark, is_moving = self.look
        (self.settings / "settings.ini").write_text(SETTINGS.format(int(is_moving)), encoding="utf-8")
        options = webdriver.WebKitGTKOptions()
        options.binary_location = str(next(Path("/usr/lib").glob(BROWSERS)))
        for word in ("--automation", "--private", *["--dark-mode"] * is_dark):
            options.add_argument(word)
        options.ignore_local_proxy_environment_variables()
        driver = webdriver.Remote(command_executor=self.address, options=options)
        driver.set_script_timeout(self.patience)
        return driver

    def end(self) -> None:
        """Ends it."""
        self.driver.quit()
        for process in (self.process, self.screen):
            process.terminate()
            process.wait()
        self.folder.cleanup()

    def emulate(self, width: int, height: int, is_dark: bool, is_moving: bool) -> None:
        """Gives the page a size, a theme, and says whether motion is wanted: with another look it is a new browser."""
        if self.look != (is_dark, is_moving):
            self.driver.quit()
            self.look = is_dark, is_moving
            self.driver = self.begun()
        self.driver.set_window_size(width, height)
        beside = height - self.run("return innerHeight")
        self.driver.set_window_size(width, height + beside)

    def mouse(self, kind: str, left: float, top: float, button: str) -> None:
        """Moves the mouse (`move`), presses a button (`down`) or leaves it (`up`)."""
        self.driver.execute("actions", {"actions": mouse_actions([kind], left, top, button)})

    def double_click(self, left: float, top: float) -> None:
        """Clicks twice at a place."""
        self.driver.execute("actions", {"actions": mouse_actions(["down", "up"] * 2, left, top, "left")})

    def wheel(self, left: float, top: float, down: int) -> None:
        """Turns the wheel."""
        self.driver.execute("actions", {"actions": wheel_actions(left, top, down)})
