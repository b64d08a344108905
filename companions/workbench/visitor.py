"""A person at the page, for tests: clicks and presses what is there, and waits for what is to be seen."""
import importlib
import time

from .browser import SECONDS, module

# What an element says, where it is to be seen.
SAID = """const node = document.querySelector(arguments[0]);
return node?.checkVisibility() ? node.innerText ?? node.textContent : "";"""


class NotSeen(Exception):
    """What was expected was not shown in time."""


class Visitor:
    """What a person does with a page that is open in a browser."""

    def __init__(self, browser, address):
        self.browser, self.keys = browser, module("common.keys").Keys
        self.acts = lambda: module("common.action_chains").ActionChains(browser)
        browser.get(address)
        self.sees("the program's standing", "return document.getElementById('standing').textContent")

    def run(self, script, *arguments):
        return self.browser.execute_script(script, *arguments)

    def sees(self, what, script, *arguments, wanted=bool):
        """Waits until a script gives what is wanted, and gives that."""
        limit = time.monotonic() + SECONDS
        while not wanted(found := self.run(script, *arguments)):
            if time.monotonic() > limit:
                raise NotSeen(f"{what}: {found!r}; the page says: {self.text('body')}")
            time.sleep(0.05)
        return found

    def text(self, selector):
        return self.run(SAID, selector)

    def reads(self, selector, *texts):
        """Waits until an element says all these texts."""
        return self.sees(f"{texts} in {selector}", SAID, selector, wanted=lambda said: all(text in said for text in texts))

    def element(self, selector):
        self.sees(selector, "return Boolean(document.querySelector(arguments[0]))", selector)
        return self.browser.find_element("css selector", selector)

    def button(self, text):
        """The button that says this, once it is there."""
        script = """return [...document.querySelectorAll("button:enabled")].find((button) =>
            button.checkVisibility() && button.innerText.trim() === arguments[0])"""
        return self.sees(f"the button {text}", script, text)

    def presses(self, text):
        """Clicks the button that says this; another one that says it, where the page is drawn anew in between."""
        stale, limit = importlib.import_module("selenium.common.exceptions").StaleElementReferenceException, time.monotonic() + SECONDS
        while True:
            try:
                return self.button(text).click()
            except stale:
                if time.monotonic() > limit:
                    raise

    def types(self, line):
        """Types a line in the command line, and waits for the row of its reply."""
        rows = "return document.querySelectorAll('#transcript .row').length"
        before = self.run(rows)
        self.element("#command").send_keys(line, self.keys.ENTER)
        self.sees(f"a reply to {line}", rows, wanted=lambda count: count > before)
        self.waits()

    def waits(self):
        """Waits until the picture is that of the session as it is."""
        script = "const { pictured, version } = document.body.dataset; return pictured !== undefined && pictured === version"
        self.sees("the picture", script)

    def events(self):
        """The names of the events that are drawn, in order, with their classes."""
        script = """return [...document.querySelectorAll("#picture .event")].map((node) =>
            [node.dataset.event, node.getAttribute("class").split(" ")])"""
        return dict(sorted(self.run(script), key=lambda each: int(each[0][1:])))

    def box(self, name):
        return self.element(f"[data-event='{name}'] .box")

    def clicks(self, name):
        self.box(name).click()
        self.reads("#details", name)

    def clicks_with_shift(self, name):
        self.acts().key_down(self.keys.SHIFT).click(self.box(name)).key_up(self.keys.SHIFT).perform()

    def key(self, *keys):
        self.acts().send_keys(*keys).perform()

    def faults(self):
        """What the browser says is wrong with the page; that the server refuses something is no fault of it."""
        return [each["message"] for each in self.browser.get_log("browser") if "the server responded with" not in each["message"]]
