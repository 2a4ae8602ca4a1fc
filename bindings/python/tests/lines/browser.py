"""Debian's chromium without a screen, by selenium: it opens pages, clicks, and says what happens in them."""
from __future__ import annotations

import contextlib
import importlib.util
import json
import os
import shutil
import tempfile
import time
import unittest
from pathlib import Path
from typing import Any, Dict, Iterator, List

CHROMIUM, DRIVER = shutil.which("chromium"), shutil.which("chromedriver")
HAS_ALL = CHROMIUM and DRIVER and importlib.util.find_spec("selenium")
# By its pipe it ends as soon as its driver does. Pages run in this user's own processes.
OPTIONS = ("--headless", "--no-sandbox", "--disable-gpu", "--disable-dev-shm-usage", "--disable-background-networking",
           "--no-first-run", "--remote-debugging-pipe", "--window-size=1400,900", "--force-device-scale-factor=1")
LOGS = {"browser": "SEVERE", "performance": "ALL"}
READY = "document.documentElement?.dataset.ready === 'yes'"


def needs_chromium(test: Any) -> Any:
    """Skips a test if chromium, its driver or selenium isn't installed."""
    return test if HAS_ALL else unittest.skip("needs chromium, chromium-driver and python3-selenium")(test)


class Page:
    """A page in a browser of its own."""

    def __init__(self, driver: Any) -> None:
        self._driver = driver
        self._errors: List[str] = []
        self._requests: List[str] = []
        # The driver has opened an empty page.
        driver.get_log("performance")

    @property
    def errors(self) -> List[str]:
        """What was thrown or logged as an error."""
        self._errors += [str(entry) for entry in self._driver.get_log("browser")]
        return self._errors

    @property
    def requests(self) -> List[str]:
        """The addresses that were asked for."""
        said = [json.loads(entry["message"])["message"] for entry in self._driver.get_log("performance")]
        self._requests += [each["params"]["request"]["url"] for each in said
                           if each["method"] == "Network.requestWillBeSent"]
        return self._requests

    def call(self, method: str, **keys: Any) -> Dict[str, Any]:
        """The result of a command. Raises WebDriverException if it is refused."""
        found: Dict[str, Any] = self._driver.execute_cdp_cmd(method, keys)
        return found

    def value(self, text: str) -> Any:
        """What JavaScript is worth."""
        found = self.call("Runtime.evaluate", expression=text, returnByValue=True, awaitPromise=True)
        assert "exceptionDetails" not in found, found
        return found["result"].get("value")

    def wait(self, text: str) -> None:
        """Waits until JavaScript is true."""
        while not self.value(text):
            time.sleep(0.02)

    def open(self, file: Path) -> float:
        """Opens a page, and returns after how many seconds it is drawn."""
        began = time.monotonic()
        self.call("Page.navigate", url=file.as_uri())
        self.wait(f"location.href === {json.dumps(file.as_uri())} && {READY}")
        return time.monotonic() - began

    def click(self, x: float, y: float) -> None:
        """Clicks at a place of the window."""
        for kind in ("mousePressed", "mouseReleased"):
            self.call("Input.dispatchMouseEvent", type=kind, x=x, y=y, button="left", clickCount=1)


@contextlib.contextmanager
def browser() -> Iterator[Page]:
    """A page, for the duration of a `with`."""
    from selenium import webdriver
    from selenium.webdriver.chrome.service import Service
    options = webdriver.ChromeOptions()
    options.binary_location = CHROMIUM
    options.page_load_strategy = "none"
    options.set_capability("goog:loggingPrefs", LOGS)
    # Else a bar says so above the page, which takes its place.
    options.add_experimental_option("excludeSwitches", ["enable-automation"])
    for option in OPTIONS:
        options.add_argument(option)
    with tempfile.TemporaryDirectory(prefix="chromium.", ignore_cleanup_errors=True) as place:
        service = Service(DRIVER, env={**os.environ, "HOME": place, "TMPDIR": place})
        with webdriver.Chrome(options=options, service=service) as driver:
            yield Page(driver)
