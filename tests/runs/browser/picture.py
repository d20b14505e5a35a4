"""The picture of docs/JAVASCRIPT.md, drawn by Chromium: what the page shows of a text with two faults.

    picture.py FOLDER PICTURE            draws it
    picture.py FOLDER PICTURE --check    fails when the page shows another text today than the picture

FOLDER is what tools/build-page has made. A picture keeps a checksum of the text that it shows, in a chunk of PNG for texts.
"""

from __future__ import annotations

import hashlib
import os
import struct
import sys
import zlib

from driver import chromium, served, shown_as
from page import Page

WIDTH = 1100
# In bytes: so large a picture may be.
LARGEST = 200_000
# The chunk that ends a picture has no data.
END_BYTES = 12


def chunk_of(text: str) -> bytes:
    """The chunk with the checksum of a text."""
    data = b"tEXtShown\0" + hashlib.sha256(text.encode()).hexdigest().encode()
    return struct.pack(">I", len(data) - 4) + data + struct.pack(">I", zlib.crc32(data))


def main() -> None:
    folder, picture = (os.path.abspath(it) for it in sys.argv[1:3])
    with chromium() as browser:
        page = Page(browser, served({"app": folder}) + "app/")
        shown_as(browser, WIDTH, 760)
        page.open(view="text", text="https://example.com/a b?x=100%&y=1#top")
        bottom = page.run("return document.querySelector('main').getBoundingClientRect().bottom")
        shown_as(browser, WIDTH, round(bottom) + 20)
        chunk = chunk_of(page.run("return document.body.innerText"))
        drawn: bytes = browser.get_screenshot_as_png()
    if sys.argv[3:] == ["--check"]:
        with open(picture, "rb") as file:
            is_new = chunk in file.read()
        sys.exit(0 if is_new else "FAILED: {} is old; PICTURE={} draws it anew".format(*2 * [sys.argv[2]]))
    with open(picture, "wb") as file:
        file.write(drawn[:-END_BYTES] + chunk + drawn[-END_BYTES:])
    size = os.path.getsize(picture)
    print("browser: the picture has {:,} bytes".format(size))
    sys.exit("FAILED: the picture has more than {:,} bytes".format(LARGEST) if size > LARGEST else 0)


if __name__ == "__main__":
    main()
