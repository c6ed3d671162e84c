"""Actions of WebDriver: what a mouse and its wheel do at a place of the window, for browsers that are asked by it."""

from __future__ import annotations

from typing import Any

BUTTONS = {"left": 0, "right": 2}
PRESSES = {"down": "pointerDown", "up": "pointerUp"}


def mouse_actions(kinds: list[str], left: float, top: float, button: str) -> list[dict[str, Any]]:
    """Moves the mouse to a place, and there presses a button (`down`) and leaves it (`up`), as the kinds say."""
    steps = [{"type": "pointerMove", "x": round(left), "y": round(top), "duration": 0, "origin": "viewport"}]
    steps += [{"type": PRESSES[kind], "button": BUTTONS[button]} for kind in kinds if kind in PRESSES]
    return [{"type": "pointer", "id": "mouse", "parameters": {"pointerType": "mouse"}, "actions": steps}]


def wheel_actions(left: float, top: float, down: int) -> list[dict[str, Any]]:
    """Turns the wheel at a place, by some pixels."""
    place = {"x": round(left), "y": round(top), "origin": "viewport"}
    return [{"type": "wheel", "id": "wheel", "actions": [{"type": "scroll", "deltaX": 0, "deltaY": down, **place}]}]
