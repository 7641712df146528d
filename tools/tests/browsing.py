"""A real browser for tests: Debian's Chromium without a window, led by Selenium, in a profile of its own that reaches this machine alone."""
import functools
import json
import os
import re
import shutil
import subprocess
import unittest
import urllib.parse

from calls import ROOT, ToolTest, has_program, python_with
from served import Served

try:
    from selenium import webdriver
    from selenium.webdriver.chrome.service import Service
    from selenium.webdriver.common.by import By
    from selenium.webdriver.common.keys import Keys
    from selenium.webdriver.support.ui import WebDriverWait
except ImportError:
    webdriver = None

CHROMIUM, DRIVER = shutil.which("chromium"), shutil.which("chromedriver")
OPTIONS = ["--headless=new", "--no-sandbox", "--disable-gpu", "--disable-background-networking", "--disable-component-update", "--no-first-run", "--disable-dev-shm-usage", "--host-resolver-rules=MAP * ~NOTFOUND , EXCLUDE 127.0.0.1"]
SECONDS = 60
# Drops a file on the page as a hand does; its text or its size is told.
DROP = """
const [name, text, size] = arguments, data = new DataTransfer();
data.items.add(new File([text === null ? new Uint8Array(size) : text], name));
for (const kind of ["dragenter", "dragover", "drop"]) document.getElementById("drop").dispatchEvent(new DragEvent(kind, { dataTransfer: data, bubbles: true, cancelable: true }));
"""


@functools.cache
def python_for_browsers():
    return python_with("selenium", "openpyxl") if CHROMIUM and DRIVER else None


def in_browser(case):
    """Skips the tests of a class where there is no browser; where this Python has no Selenium, another one that has it runs each of them."""
    for name in [name for name in vars(case) if name.startswith("test_") and webdriver is None]:
        setattr(case, name, elsewhere(name, getattr(case, name)))
    why = "it needs chromium, chromium-driver and python3-selenium, and openpyxl, all of Debian"
    return unittest.skipUnless(python_for_browsers(), why)(has_program()(case))


def elsewhere(name, test):
    @functools.wraps(test)
    def run(self):
        case = f"{type(self).__module__}.{type(self).__name__}.{name}"
        paths = [str(ROOT / "tools/tests"), str(ROOT / "tools")]
        done = subprocess.run([python_for_browsers(), "-B", "-m", "unittest", "-v", case], env=os.environ | {"PYTHONPATH": os.pathsep.join(paths)}, capture_output=True, text=True, timeout=600)
        self.assertEqual(done.returncode, 0, done.stderr)
        if why := re.search(r"\.\.\. skipped (['\"])(.*)\1$", done.stderr, re.MULTILINE):
            self.skipTest(why[2])
    return run


class BrowserTest(ToolTest):
    """A page, and a browser that has opened it."""

    def serve(self, *words):
        self.page = Served(self.folder, *words)
        self.addCleanup(self.page.end)

    def start(self, address=None, width=1200):
        """A browser of its own at an address, which is the page's where none is said."""
        options = webdriver.ChromeOptions()
        options.binary_location = CHROMIUM
        profile = self.folder / f"profile-{len(os.listdir(self.folder))}"
        for option in [*OPTIONS, f"--user-data-dir={profile}"]:
            options.add_argument(option)
        options.add_experimental_option("prefs", {"download.default_directory": str(self.folder / "downloads")})
        options.set_capability("goog:loggingPrefs", {"browser": "ALL", "performance": "ALL"})
        driver = webdriver.Chrome(service=Service(DRIVER), options=options)
        self.addCleanup(driver.quit)
        self.resize(driver, width)
        driver.get(address or self.page.address)
        return driver

    def resize(self, driver, width, height=900):
        driver.execute_cdp_cmd("Emulation.setDeviceMetricsOverride", {"width": width, "height": height, "deviceScaleFactor": 1, "mobile": False})

    def open(self, *words, width=1200):
        """Serves a page and opens it."""
        self.serve(*words)
        self.browser = self.start(width=width)
        self.wait_until_done()
        return self.browser

    def wait(self, holds):
        return WebDriverWait(self.browser, SECONDS, 0.02).until(lambda _: holds())

    def wait_until_done(self):
        self.wait(lambda: self.browser.execute_script("return document.body.getAttribute('aria-busy') === 'false'"))

    def find(self, selector):
        return self.browser.find_element(By.CSS_SELECTOR, selector)

    def all(self, selector):
        return self.browser.find_elements(By.CSS_SELECTOR, selector)

    def text(self, selector):
        return self.find(selector).text

    def drop(self, name, text=None, size=None):
        self.browser.execute_script(DROP, name, text, size)
        self.wait_until_done()

    def press(self, selector):
        self.find(selector).click()
        self.wait_until_done()

    def cell(self, person, thing):
        return self.find(f'td[data-person="{person}"][data-thing="{thing}"]')

    def choose(self, person, thing):
        self.cell(person, thing).click()
        self.wait(lambda: self.cell(person, thing).get_attribute("aria-selected") == "true")

    def keys(self, *keys):
        """Keys for whatever has the focus."""
        for key in keys:
            webdriver.ActionChains(self.browser).send_keys(getattr(Keys, key) if key.isupper() and len(key) > 1 else key).perform()
        self.wait_until_done()

    def step_back(self):
        """To what has the focus before, by the keyboard."""
        webdriver.ActionChains(self.browser).key_down(Keys.SHIFT).send_keys(Keys.TAB).key_up(Keys.SHIFT).perform()

    def rows(self):
        """The rows of the list as they are shown, without the words of buttons that act on them."""
        return self.browser.execute_script("return [...document.querySelectorAll('#list tr')].map(row => [...row.cells].slice(0, 3).map(cell => cell.textContent))")

    def sent(self, path):
        """What the page has sent to a path since the last look, as JSON."""
        events = [json.loads(entry["message"])["message"] for entry in self.browser.get_log("performance")]
        requests = [event["params"]["request"] for event in events if event["method"] == "Network.requestWillBeSent"]
        return [json.loads(request["postData"]) for request in requests if urllib.parse.urlsplit(request["url"]).path == path and "postData" in request]

    def complaints(self):
        """What the browser says of the page, but for answers that are refusals."""
        return [entry["message"] for entry in self.browser.get_log("browser") if "the server responded with a status" not in entry["message"]]
