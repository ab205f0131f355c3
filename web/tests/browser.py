"""A browser that looks at the page: Debian's chromium, driven by selenium."""
import os
import re
import shutil
import tempfile

from selenium import webdriver
from selenium.common.exceptions import (ElementClickInterceptedException, ElementNotInteractableException, NoSuchElementException,
                                        StaleElementReferenceException)
from selenium.webdriver.chrome.options import Options
from selenium.webdriver.chrome.service import Service
from selenium.webdriver.common.by import By
from selenium.webdriver.common.keys import Keys

from stand import until, WAIT


# What a browser says of an element that the page has just drawn anew, or that isn't where it may be clicked yet.
MOVING = (ElementClickInterceptedException, ElementNotInteractableException, StaleElementReferenceException)


class Browser:
    def __init__(self, width=1360, height=900):
        # All that it writes goes with it.
        self.room = tempfile.TemporaryDirectory(prefix="page-browser-", ignore_cleanup_errors=True)
        options = Options()
        options.binary_location = shutil.which("chromium")
        words = ["--headless=new", "--disable-gpu", "--lang=en-GB", "--disable-dev-shm-usage", f"--window-size={width},{height}", "--hide-scrollbars",
                 "--force-prefers-reduced-motion",
                 # A mouse, which a browser without a screen doesn't have by itself.
                 "--blink-settings=primaryHoverType=2,availableHoverTypes=2,primaryPointerType=4,availablePointerTypes=4", "--disable-extensions",
                 "--disable-background-networking", "--disable-component-update", "--no-first-run", "--mute-audio", f"--user-data-dir={self.room.name}/profile"]
        for word in words + (["--no-sandbox"] if os.getuid() == 0 else []):
            options.add_argument(word)
        options.set_capability("goog:loggingPrefs", {"browser": "ALL"})
        self.driver = webdriver.Chrome(service=Service(shutil.which("chromedriver"), env=self.environment()), options=options)
        self.size, self.stand = (width, height), None
        self.driver.set_page_load_timeout(WAIT)

    def environment(self):
        homes = {name: self.room.name for name in ("HOME", "TMPDIR", "XDG_CACHE_HOME", "XDG_CONFIG_HOME", "XDG_DATA_HOME", "XDG_RUNTIME_DIR")}
        return {name: value for name, value in os.environ.items() if name != "DISPLAY"} | homes

    def at(self, stand):
        """Begins anew, before another server."""
        self.stand = stand
        self.driver.get("about:blank")
        self.metrics(*self.size)
        self.scheme("light")
        self.driver.get_log("browser")
        return self

    def end(self):
        """It has ended when this returns, and left nothing."""
        self.driver.quit()
        left = until(lambda: not self.processes())
        self.room.cleanup()
        if not left or os.path.exists(self.room.name):
            raise AssertionError(f"the browser left something: {self.processes()} {self.room.name}")

    def processes(self):
        """The processes that have this browser's room among their words."""
        found = []
        for number in filter(str.isdigit, os.listdir("/proc")):
            try:
                with open(f"/proc/{number}/cmdline", "rb") as file:
                    words = file.read()
            except OSError:
                continue
            if self.room.name.encode() in words:
                found.append(int(number))
        return found

    def command(self, name, **words):
        return self.driver.execute_cdp_cmd(name, words)

    def metrics(self, width, height, phone=False):
        self.command("Emulation.setDeviceMetricsOverride", width=width, height=height, deviceScaleFactor=2 if phone else 1, mobile=phone)

    def scheme(self, name):
        self.command("Emulation.setEmulatedMedia", features=[{"name": "prefers-color-scheme", "value": name}])

    def open(self, where="", is_in=True):
        """Opens the page at a place, with the project's token or without one."""
        self.driver.get(self.stand.url + "icon.svg")
        self.run("sessionStorage.clear()")
        if is_in:
            self.run("sessionStorage.setItem('token /', arguments[0])", self.stand.server.project)
        self.driver.get(f"{self.stand.url}{where}")
        return self

    def go(self, where):
        self.run("location.hash = arguments[0]", where)

    def run(self, script, *words):
        return self.driver.execute_script(script, *words)

    def find(self, selector):
        try:
            return self.driver.find_element(By.CSS_SELECTOR, selector)
        except NoSuchElementException:
            return None

    def all(self, selector):
        return self.driver.find_elements(By.CSS_SELECTOR, selector)

    def text(self, selector):
        """The text of what a selector finds first; None where nothing is there."""
        return self.run("const it = document.querySelector(arguments[0]); return it && it.innerText", selector)

    def sees(self, selector, form="", seconds=WAIT):
        """Whether something with a text of this form comes to be shown."""
        return until(lambda: (text := self.text(selector)) is not None and re.search(form, text, re.I | re.S) is not None, seconds) is not None

    def gone(self, selector, seconds=WAIT):
        return until(lambda: self.find(selector) is None, seconds) is not None

    def press(self, selector):
        """Clicks what a selector finds, once it is there."""
        def done():
            found = self.find(selector)
            try:
                return found is not None and found.is_displayed() and (found.click() or True)
            except MOVING:
                return False
        if not until(done):
            raise AssertionError(f"nothing to press: {selector}")

    def write(self, selector, text):
        until(lambda: self.find(selector))
        self.find(selector).send_keys(text)

    def keys(self, *keys):
        """Keys, to what has the focus."""
        self.driver.switch_to.active_element.send_keys(*keys)

    def faults(self):
        """What the browser complained of, but for requests that failed."""
        lines = [it["message"] for it in self.driver.get_log("browser") if it["level"] in ("SEVERE", "WARNING")]
        return [line for line in lines if "Failed to load resource" not in line]

    def shot(self, path, full=False):
        if full:
            size = self.run("return [document.documentElement.scrollWidth, document.documentElement.scrollHeight]")
            self.metrics_of(size[1])
        self.driver.save_screenshot(path)

    def metrics_of(self, height):
        width, phone = self.run("return [innerWidth, devicePixelRatio > 1]")
        self.metrics(width, min(height, 4000), phone)


TAB, ENTER, ESCAPE = Keys.TAB, Keys.ENTER, Keys.ESCAPE
