"""Drives a headless Chromium by Debian's selenium, for bindings/web/tests/page.py.

    with Chromium("http://127.0.0.1:8042/", 1440, 900) as page:
        page.run("document.title")
"""
import json

from selenium import webdriver
from selenium.common.exceptions import WebDriverException
from selenium.webdriver.chrome.service import Service
from selenium.webdriver.common.action_chains import ActionChains
from selenium.webdriver.common.by import By
from selenium.webdriver.common.keys import Keys
from selenium.webdriver.support.ui import WebDriverWait

OPTIONS = ("--headless=new", "--no-sandbox", "--disable-gpu", "--no-first-run", "--disable-extensions", "--disable-background-networking")


class Chromium(webdriver.Chrome):
    """One page of a browser with a profile of its own."""

    def __init__(self, address, width, height):
        options = webdriver.ChromeOptions()
        for it in OPTIONS:
            options.add_argument(it)
        options.set_capability("goog:loggingPrefs", {"browser": "ALL"})
        super().__init__(service=Service("/usr/bin/chromedriver"), options=options)
        self.set_script_timeout(300)
        self.resize(width, height)
        self.get(address)

    def send(self, method, **params):
        """The result of a command of the DevTools protocol."""
        return self.execute_cdp_cmd(method, params)

    def resize(self, width, height):
        self.send("Emulation.setDeviceMetricsOverride", width=width, height=height, deviceScaleFactor=1, mobile=False)

    def run(self, script):
        """The value of an expression, waited for where it is a promise."""
        return self.execute_script(f"return ({script})")

    def wait(self, condition, seconds=30):
        """Waits until an expression is true. While another page is being opened, none is."""
        WebDriverWait(self, seconds, 0.02, [WebDriverException]).until(lambda _: self.run(condition), f"never true: {condition}")

    def text(self, selector):
        """The text of the first element of a selector of CSS; None where there is none."""
        return self.run(f"document.querySelector({json.dumps(selector)})?.textContent ?? null")

    def texts(self, selector):
        return self.run(f"Array.from(document.querySelectorAll({json.dumps(selector)}), (it) => it.textContent)")

    def click(self, selector):
        self.run(f"document.querySelector({json.dumps(selector)}).click()")

    def wait_text(self, selector, pattern, seconds=30):
        """Waits until the text of an element has a part that a regular expression of JavaScript matches."""
        self.wait(f"/{pattern}/.test(document.querySelector({json.dumps(selector)})?.textContent)", seconds)

    def choose_file(self, path):
        """Hands a file to the input of the file dialog."""
        self.find_element(By.ID, "file").send_keys(str(path))

    def drop(self, path, x=600, y=400):
        """Drops a file on the page, as the mouse does."""
        data = {"items": [], "files": [str(path)], "dragOperationsMask": 1}
        for kind in ("dragEnter", "dragOver", "drop"):
            self.send("Input.dispatchDragEvent", type=kind, x=x, y=y, data=data)

    def keys(self, *names, at=None):
        """Presses keys, as `ENTER` or `PAGE_DOWN`, one after the other, at an element where one is named."""
        if at:
            self.run(f"document.querySelector({json.dumps(at)}).focus()")
        for name in names:
            ActionChains(self).send_keys(getattr(Keys, name)).perform()

    def look(self, scheme):
        """Light or dark, with no transition between them."""
        wanted = {"prefers-color-scheme": scheme, "prefers-reduced-motion": "reduce"}
        self.send("Emulation.setEmulatedMedia", features=[{"name": name, "value": value} for name, value in wanted.items()])

    def faults(self):
        """What the page's console says of errors and violated policies."""
        return [it["message"] for it in self.get_log("browser") if it["level"] == "SEVERE"]
