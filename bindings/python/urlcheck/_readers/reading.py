"""The links of a document of any kind, out of a file's bytes or out of the text that an editor holds."""

import contextlib
import gc
import os
import re
from typing import Callable, Dict, Iterator, NamedTuple, Optional, Union

from . import css_links, epub, html_links, json_links, markdown_links, rst_links, xml_links
from .comments import covered
from .kinds import PACKAGES
from .source import Broken, Contents, Foreign, Link, Source, decoded, remedy_of, without_mark

MOST_BYTES = 32 * 1024 * 1024
"""How many bytes a document may have."""

LIST = "list"
"""The kind of a list with one link per line. Only editors show it; for files there is ``urlcheck lint``."""

_GZIP = b"\x1f\x8b"
"""How a file begins that gzip wrote."""

COMPRESSED = "is compressed: gzip -dc unpacks it, and - reads what that writes"
"""Why such a file isn't read."""

_LINE = re.compile("[^\r\n]+")


class Unread(Exception):
    """Why a document can't be read."""


class Reading(NamedTuple):
    """How documents are read, if there is a choice."""

    gfm: bool = False
    """Whether Markdown is read as GitHub reads it, where a bare address is a link."""
    markdown: Optional[Callable[[Source], Contents]] = None
    """What reads Markdown, if that is more than its reader: as one that knows how a text was read before."""
    rst: Callable[[Source], Contents] = rst_links.links_of
    """What reads reStructuredText."""
    most: int = MOST_BYTES
    """How many bytes a document may have."""


def found_in(given: Union[bytes, str], kind: str, reading: Reading = Reading()) -> Iterator[Contents]:
    """What is found in a document of that kind, given by its bytes or by its text: once, or of one that holds others in
    each of them; each link has the comments about it. Raises ``Unread`` where it can't be read at all, and ``Foreign``
    where its bytes aren't UTF-8. A byte order mark at its start isn't a part of its first line; a surrogate of a text is
    read as ``?``."""
    data = given if isinstance(given, bytes) else given.encode("utf-8", "replace")
    if len(data) > reading.most:
        raise Unread("has more than {} MiB".format(reading.most >> 20))
    if data.startswith(_GZIP):
        raise Unread(COMPRESSED)
    try:
        yield from _found_in_archive(data, reading) if kind == "epub" else [_found(data, kind, reading)]
    except ImportError:
        package = PACKAGES.get(kind)
        why = "is {}, which needs {}".format(package.kind, package.said()) if package else "has no reader"
        raise Unread(why) from None
    except (json_links.NoJson, epub.NoBook) as error:
        raise Unread(str(error)) from None
    except (Unread, Foreign, MemoryError, RecursionError, SystemError):
        raise
    except Exception as error:
        # (a reader that isn't ours: the other documents are still to be read)
        raise Unread("its reader failed: {!r}".format(error)) from None


_SMALL = {
    "markdown": b"[a](b)\n",
    "mdx": b"[a](b)\n",
    "notebook": b'{"cells": []}',
    "rst": b"`a <http://h/>`_\n",
    "css": b"a { b: url(c) }",
}
"""A small document of each kind that a package reads."""


def prepare(kind: Optional[str]) -> None:
    """Has the package imported that reads a kind of document, if it is installed, so that no process that begins as a
    copy of this one has to do it."""
    if kind in _SMALL and hasattr(os, "fork"):
        with contextlib.suppress(Unread):
            # (what is wrong is said of each document)
            list(found_in(_SMALL[kind], kind))
        # (what the collector doesn't look at stays shared between the processes)
        gc.freeze()


def _found(data: bytes, kind: str, reading: Reading) -> Contents:
    """What is found in a document of that kind. Raises ``ImportError`` if its reader isn't installed."""
    try:
        source = decoded(data)
    except Foreign as foreign:
        raise Foreign(foreign.before, remedy_of(data)) from None
    found = _read(source, data, kind, reading)
    # (each cell of a notebook has its own comments)
    found.links = found.links if kind == "notebook" else covered(source, found.links, found.comments)
    return found


def _read(source: Source, data: bytes, kind: str, reading: Reading) -> Contents:
    """What is in a document that is one text. Raises ``ImportError`` if its reader isn't installed."""
    if kind == "xml":
        return xml_links.links_of(source, without_mark(data))
    if kind == "notebook":
        return json_links.links_of_notebook(source, reading.gfm)
    if kind == LIST:
        return Contents(source, [Link(it.group(), it.start(), True) for it in _LINE.finditer(source.text)])
    if kind in ("markdown", "mdx"):
        is_mdx = kind == "mdx"
        return reading.markdown(source) if reading.markdown else markdown_links.links_of(source, reading.gfm, None, is_mdx)
    if kind == "rst":
        return reading.rst(source)
    return _ALONE[kind](source)


_ALONE: Dict[str, Callable[[Source], Contents]] = {
    "html": html_links.links_of,
    "css": css_links.links_of,
    "json-feed": json_links.links_of_feed,
}
"""What reads the kinds of which nothing but the text is asked."""


def _found_in_archive(data: bytes, reading: Reading) -> Iterator[Contents]:
    """What is found in each document of a book. One that isn't read stops nothing: the next is."""
    for name, kind, held in epub.documents_of(data):
        try:
            found = _found(held, kind, reading)
        except Foreign as foreign:
            found = Contents(foreign.before, broken=Broken(len(foreign.before.text), str(foreign)))
        except ImportError:
            # (only a style sheet needs a package; the rest of the book is read)
            has_links = css_links.NEEDED.search(held.decode("latin-1"))
            found = Contents(Source(""), notes={css_links.MISSING} if has_links else set())
        found.inner = name
        yield found
