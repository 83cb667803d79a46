"""A headless Chromium, driven by Debian's selenium."""
from __future__ import annotations

import base64
import os
import pathlib
import shutil
import time
from typing import Any

from selenium import webdriver
from selenium.common.exceptions import WebDriverException
from selenium.webdriver.chrome.service import Service
from selenium.webdriver.common.action_chains import ActionChains
from selenium.webdriver.common.by import By
from selenium.webdriver.common.print_page_options import PrintOptions

from support import covered
from support.program import PATIENCE


class Browser:
    """One window. It ends with the `with`. The rules say where the names of sites lead."""

    def __init__(self, rules: str, width: int = 1280, height: int = 900) -> None:
        self.rules = rules
        self.driver = started(options(rules, width, height))
        self.driver.set_script_timeout(PATIENCE)
        self.size(width, height)
        if covered.FOLDER in os.environ:
            self.tool("Profiler.enable")
            self.tool("Profiler.startPreciseCoverage", callCount=False, detailed=True)

    def __enter__(self) -> Browser:
        return self

    def __exit__(self, *_: object) -> None:
        self.keep_counts()
        self.driver.quit()

    def go(self, address: str) -> None:
        self.keep_counts()
        self.driver.get(address)

    def keep_counts(self) -> None:
        """Keeps what was counted of the scripts of the page that is left, if that is asked for."""
        if covered.FOLDER in os.environ:
            covered.keep(self.tool("Profiler.takePreciseCoverage")["result"])

    def js(self, script: str, *values: object) -> Any:
        return self.driver.execute_script(script, *values)

    def js_later(self, script: str, *values: object) -> Any:
        """The value of a script that awaits something."""
        return self.driver.execute_async_script(
            "const done = arguments[arguments.length - 1]; (async () => {%s})().then(done);" % script, *values)

    def until(self, script: str, *values: object) -> Any:
        """The first value of a script that is true, or the last one."""
        end_by = time.monotonic() + PATIENCE
        while True:
            value = self.js(script, *values)
            if value or time.monotonic() > end_by:
                return value
            time.sleep(0.03)

    def click(self, selector: str) -> None:
        """Clicks on what a selector names, at the place where it is seen."""
        self.driver.find_element(By.CSS_SELECTOR, selector).click()

    def write(self, selector: str, text: str) -> None:
        """Types a text in place of what a field has."""
        field = self.driver.find_element(By.CSS_SELECTOR, selector)
        field.clear()
        if text:
            field.send_keys(text)

    def choose(self, selector: str, value: str) -> None:
        self.js("""const field = document.querySelector(arguments[0]);
                   field.value = arguments[1];
                   for (const name of ["input", "change"]) field.dispatchEvent(new Event(name, { bubbles: true }));""",
                selector, value)

    def press(self, *keys: str, holding: str = "") -> None:
        """Presses keys one after the other, as a hand does, wherever the focus is."""
        acts = ActionChains(self.driver)
        if holding:
            acts.key_down(holding)
        acts.send_keys(*keys)
        if holding:
            acts.key_up(holding)
        acts.perform()

    def tool(self, command: str, **values: object) -> Any:
        """A command of the protocol of the developer tools."""
        return self.driver.execute_cdp_cmd(command, values)

    def size(self, width: int, height: int) -> None:
        self.tool("Emulation.setDeviceMetricsOverride", width=width, height=height, deviceScaleFactor=1, mobile=False)

    def scheme(self, name: str, media: str = "") -> None:
        """Shows the page in `light` or `dark`, or as it is printed."""
        self.tool("Emulation.setEmulatedMedia", media=media, features=[{"name": "prefers-color-scheme", "value": name}])

    def picture(self, path: pathlib.Path) -> None:
        """The whole page, also what has to be scrolled to."""
        size = self.js("const all = document.documentElement; return [window.innerWidth, all.scrollHeight]")
        told = self.tool("Page.captureScreenshot", captureBeyondViewport=True,
                         clip={"x": 0, "y": 0, "width": size[0], "height": size[1], "scale": 1})
        path.write_bytes(base64.b64decode(told["data"]))

    def printed(self) -> bytes:
        """The bytes of the page as a PDF."""
        return base64.b64decode(self.driver.print_page(PrintOptions()))

    def log(self) -> list[str]:
        """What the browser has to say of the page since the last time, but of statuses that a request had."""
        return [each["message"] for each in self.driver.get_log("browser") if each["source"] != "network"]


def options(rules: str, width: int, height: int) -> webdriver.ChromeOptions:
    found = webdriver.ChromeOptions()
    for word in ("--headless=new", "--no-sandbox", "--disable-gpu", "--disable-dev-shm-usage", "--no-first-run",
                 "--force-device-scale-factor=1", f"--window-size={width},{height}", "--lang=en-US",
                 f"--host-resolver-rules={rules}"):
        found.add_argument(word)
    found.binary_location = shutil.which("chromium")
    found.accept_insecure_certs = True
    found.set_capability("goog:loggingPrefs", {"browser": "ALL"})
    return found


def started(wanted: webdriver.ChromeOptions, tries: int = 3) -> webdriver.Chrome:
    """A driver at a port that was free. Another program may be faster to take it, and then another port is tried."""
    while True:
        try:
            return webdriver.Chrome(service=Service(shutil.which("chromedriver")), options=wanted)
        except WebDriverException:
            tries -= 1
            if tries == 0:
                raise
