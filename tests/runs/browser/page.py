"""The page in a browser, and what is seen of it."""

from __future__ import annotations

import time
import urllib.parse
from collections.abc import Callable
from typing import Any

from selenium.webdriver.common.by import By
from selenium.webdriver.remote.webdriver import WebDriver
from selenium.webdriver.remote.webelement import WebElement

# In seconds: so long a test waits for what has to come, on a machine that does much else.
PATIENCE = 120
HAS_ANSWERED = "return performance.getEntriesByName('urlcheck-first-answer').length > 0"


class Page:
    """The page at an address, which ends with a slash."""

    def __init__(self, browser: WebDriver, address: str) -> None:
        self.browser = browser
        self.address = address
        self.run: Callable[..., Any] = browser.execute_script

    def run_until_done(self, script: str, *words: object) -> Any:
        """Runs a script that calls `done` with its answer, or with an error; the words are its `words`."""
        run: Callable[..., Any] = self.browser.execute_async_script
        body = "const words = [...arguments]; const done = words.pop(); const failed = error => done(String(error));"
        return run(body + script, *words)

    def open(self, **state: str) -> None:
        self.browser.switch_to.default_content()
        self.browser.get("about:blank")
        self.browser.get(self._address_of(state))
        self.wait(lambda: bool(self.run(HAS_ANSWERED)))

    def open_in_frame(self, width: int, frame: str, **state: str) -> None:
        """Opens it in a frame of the document at another address: a window can't be as narrow in each browser."""
        self.browser.switch_to.default_content()
        self.browser.get(frame)
        self.run(
            "const frame = document.querySelector('iframe');"
            "frame.style.width = `${arguments[0]}px`; frame.src = arguments[1]",
            width,
            self._address_of(state),
        )
        self.browser.switch_to.frame(self.find("iframe"))
        self.wait(lambda: bool(self.run("return location.href !== 'about:blank'") and self.run(HAS_ANSWERED)))

    def resize_frame(self, width: int) -> None:
        """Makes the frame that it was opened in as wide as this."""
        self.browser.switch_to.default_content()
        self.run("document.querySelector('iframe').style.width = `${arguments[0]}px`", width)
        self.browser.switch_to.frame(self.find("iframe"))
        self.wait(lambda: bool(self.run("return innerWidth") == width))

    def _address_of(self, state: dict[str, str]) -> str:
        return self.address + "index.html" + ("#" + urllib.parse.urlencode(state) if state else "")

    def find(self, selector: str) -> WebElement:
        return self.browser.find_element(By.CSS_SELECTOR, selector)

    def wait(self, done: Callable[[], bool], seconds: float = PATIENCE) -> None:
        end = time.monotonic() + seconds
        while not done():
            if time.monotonic() > end:
                raise AssertionError("the page doesn't come to an end: " + self.text("main")[:300])
            time.sleep(0.05)

    def text(self, selector: str) -> str:
        return str(self.run("return document.querySelector(arguments[0])?.innerText ?? ''", selector))

    def verdict(self, within: str = "#text-output") -> tuple[str, str]:
        """The word of the verdict, and what follows it; both are empty when none is shown."""
        word, rest = self.run(
            "const line = document.querySelector(arguments[0] + ' .verdict');"
            "return line ? [line.querySelector('strong')?.textContent ?? line.textContent,"
            " line.querySelector('.rest')?.textContent ?? ''] : ['', '']",
            within,
        )
        return word, rest

    def fill(self, name: str, text: str) -> None:
        """Sets a field at once, as a paste does."""
        self.run(
            "const field = document.getElementById(arguments[0]); field.value = arguments[1];"
            "field.dispatchEvent(new Event('input', { bubbles: true }))",
            name,
            text,
        )

    def drop(self, name: str, data: str) -> None:
        """Drops a file with this name, whose bytes the server has at this path."""
        self.run_until_done(
            "fetch(words[1]).then(answer => answer.blob()).then(blob => {"
            "const files = new DataTransfer(); files.items.add(new File([blob], words[0]));"
            "const drop = { bubbles: true, cancelable: true, dataTransfer: files };"
            "document.body.dispatchEvent(new DragEvent('drop', drop)); done() }, failed)",
            name,
            data,
        )

    def kept(self, format: str) -> str:
        """What the page gives to be kept in a format, as text."""
        return str(
            self.run_until_done(
                "const make = URL.createObjectURL;"
                "URL.createObjectURL = blob => {"
                "URL.createObjectURL = make; blob.text().then(done, failed); return make(blob) };"
                "document.querySelector(`[data-format=${words[0]}]`).click()",
                format,
            )
        )

    def report_ended(self) -> bool:
        return self.verdict("#report")[0] != "" and not self.run("return !!document.querySelector('#report progress')")

    def wait_for_report(self, *words: str) -> None:
        """Waits until the report has ended, and its verdict has each of these words, or what follows it."""
        self.wait(lambda: self.report_ended() and set(words) <= set(self.verdict("#report")))
