"""A server of some folders, and the browsers that the runs drive: Chromium, Firefox and WebKit, each by WebDriver."""

from __future__ import annotations

import contextlib
import dataclasses
import functools
import glob
import http.server
import os
import shutil
import subprocess
import threading
from collections.abc import Callable, Iterator
from typing import Any

import gecko
from selenium import webdriver
from selenium.webdriver.chrome.options import Options as ChromiumOptions
from selenium.webdriver.chrome.service import Service as ChromiumService
from selenium.webdriver.common.options import ArgOptions
from selenium.webdriver.firefox.options import Options as FirefoxOptions
from selenium.webdriver.remote.webdriver import WebDriver
from selenium.webdriver.webkitgtk.options import Options as WebKitOptions
from selenium.webdriver.webkitgtk.service import Service as WebKitService

CHROMEDRIVER = "/usr/bin/chromedriver"
WEBKIT_DRIVER = "/usr/bin/WebKitWebDriver"
# In seconds: so long a script of a test may take, on a machine that does much else.
LONGEST_SCRIPT = 600


class Handler(http.server.SimpleHTTPRequestHandler):
    """Serves each folder under the first word of a path."""

    extensions_map = {
        ".html": "text/html; charset=utf-8",
        ".css": "text/css",
        ".js": "text/javascript",
        ".mjs": "text/javascript",
        ".json": "application/json",
        ".svg": "image/svg+xml",
        ".wasm": "application/wasm",
        "": "text/plain",
    }

    def __init__(self, *words: Any, folders: dict[str, str], **named: Any) -> None:
        self.folders = folders
        super().__init__(*words, **named)

    def translate_path(self, path: str) -> str:
        name, _, rest = path.lstrip("/").partition("/")
        self.directory = self.folders.get(name, "/nonexistent")
        return super().translate_path("/" + rest)

    def log_message(self, format: str, *words: object) -> None:
        pass


class Quiet(http.server.ThreadingHTTPServer):
    daemon_threads = True

    def handle_error(self, request: object, client_address: object) -> None:
        """A browser that goes elsewhere drops what it has asked for."""


def served(folders: dict[str, str]) -> str:
    """The address of a server of the folders, by their names. A folder may be added while it runs."""
    server = Quiet(("127.0.0.1", 0), functools.partial(Handler, folders=folders))
    threading.Thread(target=server.serve_forever, daemon=True).start()
    return "http://127.0.0.1:{}/".format(server.server_port)


def add_arguments(options: ArgOptions, *words: str) -> None:
    add: Callable[[str], None] = options.add_argument
    for word in words:
        add(word)


@contextlib.contextmanager
def chromium(dark: bool = False) -> Iterator[WebDriver]:
    """A headless Chromium."""
    options = ChromiumOptions()
    add_arguments(options, "--headless=new", "--no-sandbox", "--disable-gpu", "--hide-scrollbars")
    add_arguments(options, "--disable-dev-shm-usage", *["--force-dark-mode"] * dark)
    browser = webdriver.Chrome(options=options, service=ChromiumService(CHROMEDRIVER))
    try:
        yield browser
    finally:
        browser.quit()


@contextlib.contextmanager
def firefox(dark: bool = False) -> Iterator[WebDriver]:
    """A headless Firefox."""
    with gecko.started(dark) as address:
        yield webdriver.Remote(address, options=FirefoxOptions())


@contextlib.contextmanager
def screen() -> Iterator[str]:
    """The name of a screen that no one sees."""
    read, write = os.pipe()
    words = ["Xvfb", "-displayfd", str(write), "-screen", "0", "1400x1000x24", "-nolisten", "tcp"]
    server = subprocess.Popen(words, pass_fds=[write], stderr=subprocess.DEVNULL)
    os.close(write)
    try:
        with os.fdopen(read) as told:
            yield ":" + told.readline().strip()
    finally:
        server.terminate()
        server.wait(LONGEST_SCRIPT)


@contextlib.contextmanager
def webkit(dark: bool = False) -> Iterator[WebDriver]:
    """WebKitGTK, which has no headless mode, on a screen of its own."""
    options = WebKitOptions()
    options.binary_location = sorted(glob.glob("/usr/lib/*/webkit2gtk-4.*/MiniBrowser"))[-1]
    add_arguments(options, "--automation", *["--dark-mode"] * dark)
    with screen() as display:
        service = WebKitService(WEBKIT_DRIVER, env={**os.environ, "DISPLAY": display})
        start: Callable[[], None] = service.start
        start()
        try:
            browser = webdriver.Remote(service.service_url, options=options)
            yield browser
            browser.quit()
        finally:
            service.stop()


@dataclasses.dataclass(frozen=True)
class Engine:
    """A browser: its name, the packages of Debian that have it, the programs without which it isn't driven, and how one
    is started, in light colours or in dark ones."""

    name: str
    packages: str
    programs: tuple[str, ...]
    started: Callable[[bool], contextlib.AbstractContextManager[WebDriver]]

    def is_installed(self) -> bool:
        return all(shutil.which(it) for it in self.programs)


ENGINES = {
    it.name: it
    for it in (
        Engine("chromium", "chromium or chromium-driver", ("chromium", CHROMEDRIVER), chromium),
        Engine("firefox", "firefox-esr", ("firefox-esr",), firefox),
        Engine("webkit", "webkit2gtk-driver or xvfb", ("Xvfb", WEBKIT_DRIVER), webkit),
    )
}


def shown_as(browser: WebDriver, width: int, height: int, scheme: str = "light") -> None:
    """Shows what is seen in Chromium in this size, in light or dark colours, by its own protocol."""
    command: Callable[[str, dict[str, object]], object] = getattr(browser, "execute_cdp_cmd")
    size: dict[str, object] = {"width": width, "height": height, "deviceScaleFactor": 1, "mobile": False}
    command("Emulation.setDeviceMetricsOverride", size)
    command("Emulation.setEmulatedMedia", {"features": [{"name": "prefers-color-scheme", "value": scheme}]})
