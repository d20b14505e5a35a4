"""A bundle of the package in Chromium: bundle.py FOLDER, whose index.html loads it. It says what the page's title became.

The folder is served as it is, so that the bundle finds the module's file where its author has put it.
"""

from __future__ import annotations

import os
import sys
import time

from driver import chromium, served

# In seconds: so long a page may take to set its title.
LONGEST = 60


def main() -> None:
    with chromium() as browser:
        browser.get(served({"bundle": os.path.abspath(sys.argv[1])}) + "bundle/index.html")
        until = time.monotonic() + LONGEST
        while not browser.title and time.monotonic() < until:
            time.sleep(0.1)
        print(browser.title)


if __name__ == "__main__":
    main()
