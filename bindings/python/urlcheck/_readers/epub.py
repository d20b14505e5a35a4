"""The documents of a book (EPUB): a zip file of XHTML, which is read in memory."""

import io
import zipfile
from typing import Iterator, Tuple

from .kinds import kind_of

MOST_UNPACKED = 128 * 1024 * 1024
"""How many bytes the documents of a book may have together."""

_READ = ("html", "xml", "css")
"""The kinds of documents that are read of a book."""


class NoBook(Exception):
    """Why a book can't be read."""


def documents_of(data: bytes) -> Iterator[Tuple[str, str, bytes]]:
    """The documents of a book in their order: the name, the kind and the bytes of each. Raises ``NoBook``."""
    room = MOST_UNPACKED
    try:
        with zipfile.ZipFile(io.BytesIO(data)) as book:
            for entry in book.infolist():
                kind = kind_of(entry.filename)
                if entry.is_dir() or kind not in _READ:
                    continue
                with book.open(entry) as file:
                    # (what an entry says of its length may be wrong)
                    held = file.read(room + 1)
                room -= len(held)
                if room < 0:
                    raise NoBook("holds more than {} MiB".format(MOST_UNPACKED >> 20))
                yield entry.filename, kind, held
    except (zipfile.BadZipFile, zipfile.LargeZipFile, EOFError, RuntimeError, OSError, ValueError) as error:
        raise NoBook("isn't a book that can be read: {}".format(error)) from None
