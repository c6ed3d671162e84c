"""Chromium without a window, asked by its driver and by its own protocol for developers."""

from __future__ import annotations

import json
import os
from typing import Any

from selenium import webdriver
from selenium.common.exceptions import WebDriverException
from selenium.webdriver.chrome.service import Service

from .driven import Driven

CHROMIUM, DRIVER = "/usr/bin/chromium", "/usr/bin/chromedriver"
# (it runs as root, and where /dev/shm is small; the page is never in the background, and no page that was left is kept)
WORDS = (
    "--headless=new",
    "--no-sandbox",
    "--disable-dev-shm-usage",
    "--disable-gpu",
    "--force-device-scale-factor=1",
    "--force-color-profile=srgb",
    "--disable-renderer-backgrounding",
    "--disable-backgrounding-occluded-windows",
    "--disable-background-timer-throttling",
    "--disable-background-networking",
    "--disable-features=BackForwardCache",
)
# how often the browser is started, where it ends at once
STARTS = 3
EVENTS = {"down": "mousePressed", "up": "mouseReleased", "move": "mouseMoved"}
HELD = {"left": 1, "right": 2, "none": 0}


def started() -> webdriver.Chrome:
    """The driver of a browser. (Its port is free when it is looked for, and may be taken when the driver begins.)"""
    options = webdriver.ChromeOptions()
    options.binary_location = CHROMIUM
    for word in WORDS:
        options.add_argument(word)
    options.set_capability("goog:loggingPrefs", {"browser": "ALL", "performance": "ALL"})
    # (requests to this machine go to no proxy)
    options.ignore_local_proxy_environment_variables()
    for _ in range(STARTS - 1):
        try:
            return webdriver.Chrome(service=Service(DRIVER, log_output=os.devnull), options=options)
        except WebDriverException:
            pass
    return webdriver.Chrome(service=Service(DRIVER, log_output=os.devnull), options=options)


class Chromium(Driven):
    """The browser."""

    def __init__(self, patience: int) -> None:
        self.driver = started()
        self.driver.set_script_timeout(patience)

    def end(self) -> None:
        """Ends it."""
        self.driver.quit()

    def emulate(self, width: int, height: int, is_dark: bool, is_moving: bool) -> None:
        """Gives the page a size, a theme, and says whether motion is wanted."""
        metrics = {"width": width, "height": height, "deviceScaleFactor": 1, "mobile": False}
        self.driver.execute_cdp_cmd("Emulation.setDeviceMetricsOverride", metrics)
        theme = {"name": "prefers-color-scheme", "value": "dark" if is_dark else "light"}
        motion = {"name": "prefers-reduced-motion", "value": "no-preference" if is_moving else "reduce"}
        self.driver.execute_cdp_cmd("Emulation.setEmulatedMedia", {"features": [theme, motion]})

    def messages(self) -> list[dict[str, Any]]:
        """What the console holds, since it was asked last."""
        return list(self.driver.get_log("browser"))

    def requests(self) -> list[str]:
        """The addresses that were asked for, since this was asked last."""
        found = [json.loads(each["message"])["message"] for each in self.driver.get_log("performance")]
        return [each["params"]["request"]["url"] for each in found if each["method"] == "Network.requestWillBeSent"]

    def mouse(self, kind: str, left: float, top: float, button: str, clicks: int = 1) -> None:
        """Moves the mouse (`move`), presses a button (`down`) or leaves it (`up`)."""
        held = 0 if kind == "up" else HELD[button]
        event = {"type": EVENTS[kind], "x": left, "y": top, "button": button, "buttons": held, "clickCount": clicks}
        self.driver.execute_cdp_cmd("Input.dispatchMouseEvent", event)

    def double_click(self, left: float, top: float) -> None:
        """Clicks twice at a place."""
        for clicks in (1, 2):
            self.mouse("down", left, top, "left", clicks)
            self.mouse("up", left, top, "left", clicks)

    def wheel(self, left: float, top: float, down: int) -> None:
        """Turns the wheel."""
        event = {"type": "mouseWheel", "x": left, "y": top, "deltaX": 0, "deltaY": down}
        self.driver.execute_cdp_cmd("Input.dispatchMouseEvent", event)

    def touch(self, kind: str, points: list[dict[str, float]]) -> None:
        """Lays fingers (`touchStart`), moves them (`touchMove`) or lifts them (`touchEnd`)."""
        self.driver.execute_cdp_cmd("Input.dispatchTouchEvent", {"type": kind, "touchPoints": points})
