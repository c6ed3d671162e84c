"""Firefox without a window. It is asked by its own protocol Marionette, so that it needs no driver: a message is its
length, a colon and JSON."""

from __future__ import annotations

import json
import os
import socket
import subprocess
import tempfile
import time
from base64 import b64decode
from pathlib import Path
from typing import Any

from .actions import mouse_actions, wheel_actions

FIREFOX = "/usr/bin/firefox-esr"
# (the window is larger than all pages that are shown in it; `--remote-allow-system-access` is for `EMULATED`)
WORDS = "--headless --no-remote --marionette --remote-allow-system-access --width 1800 --height 1300".split()
# the file in which it leaves the port on which it listens: one that was free
PORT = "MarionetteActivePort"
# (events of the mouse are sent where they are made: those that go by the window may be waited for in vain)
PREFERENCES = """
user_pref("marionette.port", 0);
user_pref("remote.events.async.mouse.enabled", false);
user_pref("remote.events.async.wheel.enabled", false);
"""
# the seconds in which it starts
PATIENCE = 60
# the size of the page, the theme (0 is the dark one) and whether motion is reduced, set from outside the page
EMULATED = """
    const [width, height, isDark, isMoving] = arguments;
    const { style } = Services.wm.getMostRecentWindow("navigator:browser").gBrowser.selectedBrowser;
    for (const name of ["width", "min-width", "max-width"]) style.setProperty(name, `${width}px`);
    for (const name of ["height", "min-height", "max-height"]) style.setProperty(name, `${height}px`);
    Services.prefs.setIntPref("layout.css.prefers-color-scheme.content-override", isDark ? 0 : 1);
    Services.prefs.setIntPref("ui.prefersReducedMotion", isMoving ? 0 : 1);
"""


class FirefoxFault(Exception):
    """What Firefox refuses."""


class Marionette:
    """Asks a Firefox that listens on a port of this machine."""

    def __init__(self, port: int, patience: int) -> None:
        self.socket = socket.create_connection(("127.0.0.1", port), patience)
        self.answers = self.socket.makefile("rb")
        self.count = 0
        self.read()

    def read(self) -> Any:
        """The next message."""
        length = b""
        while not length.endswith(b":"):
            letter = self.answers.read(1)
            if not letter:
                raise FirefoxFault("it ended by itself")
            length += letter
        return json.loads(self.answers.read(int(length[:-1])))

    def ask(self, name: str, **words: Any) -> Any:
        """What a command answers."""
        self.count += 1
        message = json.dumps([0, self.count, name, words]).encode()
        self.socket.sendall(b"%d:%s" % (len(message), message))
        _, _, fault, answer = self.read()
        if fault:
            raise FirefoxFault(f"{name}: {fault['error']}: {fault['message']}")
        return answer


class Firefox:
    """A Firefox with a profile of its own, which is gone when it ends."""

    def __init__(self, patience: int) -> None:
        self.folder = tempfile.TemporaryDirectory(prefix="firefox-", ignore_cleanup_errors=True)
        Path(self.folder.name, "user.js").write_text(PREFERENCES, encoding="utf-8")
        words = [FIREFOX, *WORDS, "--profile", self.folder.name]
        quiet = {"stdin": subprocess.DEVNULL, "stdout": subprocess.DEVNULL, "stderr": subprocess.DEVNULL}
        self.process = subprocess.Popen(words, env={**os.environ, "HOME": self.folder.name}, **quiet)
        # (a script that takes too long is told before)
        self.remote = Marionette(self.port(), patience + PATIENCE)
        self.remote.ask("WebDriver:NewSession", capabilities={"alwaysMatch": {}})
        self.remote.ask("WebDriver:SetTimeouts", script=1000 * patience)

    def port(self) -> int:
        """The port on which it listens, once it does."""
        file, end = Path(self.folder.name, PORT), time.monotonic() + PATIENCE
        while self.process.poll() is None and time.monotonic() < end:
            if file.is_file() and file.read_text(encoding="utf-8"):
                return int(file.read_text(encoding="utf-8"))
            time.sleep(0.05)
        raise FirefoxFault(f"it does not listen within {PATIENCE} seconds")

    def end(self) -> None:
        """Ends it."""
        self.remote.ask("Marionette:Quit", flags=["eForceQuit"])
        self.process.wait(PATIENCE)
        self.folder.cleanup()

    def get(self, address: str) -> None:
        """Opens an address."""
        self.remote.ask("WebDriver:Navigate", url=address)

    def refresh(self) -> None:
        """Loads the page anew."""
        self.remote.ask("WebDriver:Refresh")

    def run(self, script: str, *words: Any) -> Any:
        """What a script answers."""
        return self.remote.ask("WebDriver:ExecuteScript", script=script, args=words, newSandbox=False)["value"]

    def run_later(self, script: str, *words: Any) -> Any:
        """What a script calls its last argument with."""
        return self.remote.ask("WebDriver:ExecuteAsyncScript", script=script, args=words, newSandbox=False)["value"]

    def picture(self) -> bytes:
        """The page as it is seen, as PNG."""
        return b64decode(self.remote.ask("WebDriver:TakeScreenshot", full=False)["value"])

    def emulate(self, width: int, height: int, is_dark: bool, is_moving: bool) -> None:
        """Gives the page a size, a theme, and says whether motion is wanted."""
        self.remote.ask("Marionette:SetContext", value="chrome")
        self.run(EMULATED, width, height, is_dark, is_moving)
        self.remote.ask("Marionette:SetContext", value="content")

    def mouse(self, kind: str, left: float, top: float, button: str) -> None:
        """Moves the mouse (`move`), presses a button (`down`) or leaves it (`up`)."""
        self.remote.ask("WebDriver:PerformActions", actions=mouse_actions([kind], left, top, button))

    def double_click(self, left: float, top: float) -> None:
        """Clicks twice at a place."""
        self.remote.ask("WebDriver:PerformActions", actions=mouse_actions(["down", "up"] * 2, left, top, "left"))

    def wheel(self, left: float, top: float, down: int) -> None:
        """Turns the wheel."""
        self.remote.ask("WebDriver:PerformActions", actions=wheel_actions(left, top, down))
