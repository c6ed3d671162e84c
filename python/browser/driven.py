"""A browser that selenium asks, by the browser's driver."""

from __future__ import annotations

from typing import Any

from selenium.webdriver.remote.webdriver import WebDriver


class Driven:
    """What each such browser is asked in the same way."""

    driver: WebDriver

    def get(self, address: str) -> None:
        """Opens an address."""
        self.driver.get(address)

    def refresh(self) -> None:
        """Loads the page anew."""
        self.driver.refresh()

    def run(self, script: str, *words: Any) -> Any:
        """What a script answers."""
        return self.driver.execute_script(script, *words)

    def run_later(self, script: str, *words: Any) -> Any:
        """What a script calls its last argument with."""
        return self.driver.execute_async_script(script, *words)

    def picture(self) -> bytes:
        """The page as it is seen, as PNG."""
        return bytes(self.driver.get_screenshot_as_png())
