"""A headless Chromium, driven by its driver."""

import functools
import importlib.util
import json
import os
import shutil
import tempfile
import unittest

from outside import folder
from page import PATIENCE

has_selenium = importlib.util.find_spec("selenium") is not None
if has_selenium:
    from selenium import webdriver
    from selenium.webdriver.chrome.service import Service
    from selenium.webdriver.common.by import By
    from selenium.webdriver.common.keys import Keys
    from selenium.webdriver.support.ui import WebDriverWait


@functools.cache
def missing():
    """Why there is no browser; None if there is one."""
    if not has_selenium:
        return "python3-selenium isn't installed"
    if not shutil.which("chromium") or not shutil.which("chromedriver"):
        return "the packages chromium and chromium-driver aren't installed"
    return None


def needs_browser(case):
    return unittest.skipIf(missing() is not None, missing() or "")(case)


class Browser:
    """A browser on one page. `requests` has the addresses of all that it asked for since the last call."""

    def __init__(self, *more):
        self.downloads = tempfile.mkdtemp(prefix="saved-", dir=folder())
        self._profile = tempfile.mkdtemp(prefix="chromium-", dir=folder())
        options = webdriver.ChromeOptions()
        options.binary_location = shutil.which("chromium")
        for word in ("--headless=new", "--no-sandbox", "--disable-dev-shm-usage", "--disable-gpu", "--lang=en",
                     "--force-device-scale-factor=1", "--disable-background-networking",
                     f"--user-data-dir={self._profile}", *more):
            options.add_argument(word)
        options.add_experimental_option("prefs", {"download.default_directory": self.downloads})
        options.set_capability("goog:loggingPrefs", {"performance": "ALL", "browser": "ALL"})
        self.driver = webdriver.Chrome(service=Service(shutil.which("chromedriver")), options=options)
        self.driver.set_page_load_timeout(PATIENCE)
        self.driver.set_script_timeout(PATIENCE)

    def close(self):
        self.driver.quit()
        shutil.rmtree(self._profile, ignore_errors=True)

    def size(self, width, height=900):
        self.driver.execute_cdp_cmd("Emulation.setDeviceMetricsOverride", {
            "width": width, "height": height, "deviceScaleFactor": 1, "mobile": False})

    def media(self, **features):
        self.driver.execute_cdp_cmd("Emulation.setEmulatedMedia", {
            "features": [{"name": name.replace("_", "-"), "value": value} for name, value in features.items()]})

    def open(self, address):
        self.driver.get("about:blank")
        self.driver.get(address)

    def run(self, script, *arguments):
        return self.driver.execute_script(script, *arguments)

    def wait(self, script, *arguments, seconds=PATIENCE):
        """Waits until a script returns something, and returns it."""
        return WebDriverWait(self.driver, seconds, 0.05).until(
            lambda driver: driver.execute_script(script, *arguments), f"not so after {seconds} seconds: {script}")

    def text(self, selector):
        return self.run("return document.querySelector(arguments[0])?.innerText ?? ''", selector)

    def wait_text(self, selector, part):
        """Waits until an element's text has a part."""
        try:
            self.wait("return (document.querySelector(arguments[0])?.innerText ?? '').includes(arguments[1])", selector,
                      part)
        except Exception as error:
            raise AssertionError(f"{selector} has no {part!r}: {self.text(selector)!r}") from error

    def element(self, selector):
        return self.driver.find_element(By.CSS_SELECTOR, selector)

    def click(self, selector):
        self.run("arguments[0].scrollIntoView({block: 'center'})", self.element(selector))
        self.element(selector).click()

    def keys(self, *keys):
        self.driver.switch_to.active_element.send_keys(*[getattr(Keys, key, key) for key in keys])

    def focused(self):
        """The id and the name of what has the focus."""
        return self.run("const one = document.activeElement; return [one.id, one.innerText ?? '', one.tagName]")

    def requests(self):
        found = []
        for entry in self.driver.get_log("performance"):
            message = json.loads(entry["message"])["message"]
            if message["method"] == "Network.requestWillBeSent":
                found.append(message["params"]["request"]["url"])
        return found

    def faults(self):
        """What the browser's console has."""
        return [entry["message"] for entry in self.driver.get_log("browser")]

    def saved(self, name):
        """A file that the page offered, once it is written whole."""
        path = os.path.join(self.downloads, name)
        WebDriverWait(self.driver, PATIENCE, 0.1).until(lambda _: os.path.exists(path) and os.path.getsize(path))
        return path
