"""The links of JSON documents, where they are in them: Jupyter notebooks, and JSON Feed."""

import bisect
import json
import json.decoder
import json.scanner
import re
from typing import Any, Callable, Dict, Iterator, List, Match, Optional, Tuple

from . import html_links, markdown_links
from .comments import covered
from .slots import Syntax
from .source import Asks, Broken, Contents, Link, Source, Written, moved, read, text_of

_ESCAPE = re.compile(r"\\u[dD][89abAB][0-9a-fA-F]{2}\\u[dD][c-fC-F][0-9a-fA-F]{2}|\\u[0-9a-fA-F]{4}|\\.")
"""What stands for a code point in a string of JSON."""

_URLS = {
    "home_page_url": Asks.ABSOLUTE,
    "feed_url": Asks.ABSOLUTE,
    "next_url": Asks.ABSOLUTE,
    "icon": Asks.SOME,
    "favicon": Asks.SOME,
    "url": Asks.ABSOLUTE,
    "external_url": Asks.ABSOLUTE,
    "image": Asks.SOME,
    "banner_image": Asks.SOME,
    "avatar": Asks.SOME,
}
"""The members of JSON Feed 1.1 whose value is a URL, with what it has to be. The URL of an item may be missing, and is
absolute; the URLs of a hub and an attachment are absolute too."""


_decoding: Any = json.decoder
_scanning: Any = json.scanner


class NoJson(ValueError):
    """Why a document isn't JSON, or not of the kind."""


class Text(str):
    """A string of the document, and where it is after its quote."""

    at: int = 0


def _parsed(source: Source) -> Any:
    """The document's value, with each string as a ``Text``. Raises ``Broken``, and ``RecursionError`` if it is nested
    too deeply."""

    # (the decoder in C knows no places, so the decoder in Python reads, with a function for strings that notes them)
    def string(text: str, begin: int, strict: bool = True) -> Tuple[Text, int]:
        value, end = _decoding.py_scanstring(text, begin, strict)
        found = Text(text_of(value))
        found.at = begin
        return found, end

    decoder: Any = json.JSONDecoder()
    decoder.parse_string = string
    decoder.scan_once = _scanning.py_make_scanner(decoder)
    try:
        return decoder.decode(source.text)
    except json.JSONDecodeError as error:
        raise Broken(error.pos, "no JSON: " + error.msg[:1].lower() + error.msg[1:]) from None


def _written(source: Source, text: Text) -> Written:
    """Where the code points of a string are in the document."""
    end = text.at
    while source.text[end : end + 1] not in ('"', ""):
        end += 2 if source.text[end] == "\\" else 1
    return read(source.text[text.at : end], text.at, _ESCAPE, _escaped, _STRING)[1]


def _read_string(raw: str) -> Optional[str]:
    """What is read in a string between its quotes, if it is one. (A surrogate couldn't be written again.)"""
    try:
        text = str(json.loads('"{}"'.format(raw)))
    except ValueError:
        return None
    return text if text_of(text) == text else None


_STRING = Syntax(_read_string, lambda text, raw: json.dumps(text, ensure_ascii=raw.isascii())[1:-1])
"""That of a string, between its quotes."""


def _escaped(found: Match[str]) -> str:
    """What an escape stands for."""
    return text_of(str(json.loads('"{}"'.format(found[0]))))


def _place_in(source: Source, texts: List[Text]) -> Callable[[int], int]:
    """What gives the place in the document of a place in these strings, which are read as one text."""
    begins, length = [], 0
    for text in texts:
        begins.append(length)
        length += len(text)
    known: Dict[int, Written] = {}

    # (a string is read again for its places only when a link is in it)
    def place_of(at: int) -> int:
        number = max(0, bisect.bisect_right(begins, at) - 1)
        if number not in known:
            known[number] = _written(source, texts[number])
        return known[number].place(at - begins[number])

    return place_of


def links_of_notebook(source: Source, is_gfm: bool) -> Contents:
    """What is in a notebook's cells of Markdown: links, each with the number of its cell, from 1, and its line there,
    and with the comments about it; and these comments."""
    try:
        notebook = _parsed(source)
    except Broken as broken:
        return Contents(source, broken=broken)
    if not isinstance(notebook, dict) or not isinstance(notebook.get("cells"), list):
        raise NoJson("isn't a notebook that can be read: it has no cells")
    found = Contents(source)
    for number, cell in enumerate(notebook["cells"], 1):
        if isinstance(cell, dict) and cell.get("cell_type") == "markdown":
            _take_cell(found, number, cell.get("source"), is_gfm)
    return found


def _take_cell(found: Contents, number: int, given: Any, is_gfm: bool) -> None:
    """Takes what is in a cell, which is a string or a list of them."""
    texts = [it for it in (given if isinstance(given, list) else [given]) if isinstance(it, Text)]
    cell = Source("".join(texts))
    if not cell.text:
        return
    place_of = _place_in(found.source, texts)
    inner = markdown_links.links_of(cell, is_gfm)
    placed = {it: it._replace(offset=place_of(it.offset)) for it in inner.comments}
    for link in covered(cell, inner.links, inner.comments):
        where = "cell {}, line {}".format(number, cell.position(link.offset)[0])
        about = tuple(placed[it] for it in link.comments)
        found.links.append(moved(link, found.source, place_of, _STRING)._replace(within=where, comments=about))
    found.comments += placed.values()
    found.lost += [it._replace(offset=place_of(it.offset)) for it in inner.lost]


def links_of_feed(source: Source) -> Contents:
    """What is in a JSON Feed (1.0 and 1.1) and in the HTML that it holds."""
    try:
        feed = _parsed(source)
    except Broken as broken:
        return Contents(source, broken=broken)
    if not isinstance(feed, dict) or not ("items" in feed or "version" in feed):
        raise NoJson("isn't a JSON Feed: it has no items and no version")
    return Contents(source, sorted(_of_feed(source, feed), key=lambda link: link.offset))


def _of_feed(source: Source, feed: Dict[str, Any]) -> Iterator[Link]:
    """The links of a feed. It is walked without recursion, since its author chooses how deeply it is nested."""
    waiting: List[Any] = [feed]
    while waiting:
        value = waiting.pop()
        if isinstance(value, list):
            waiting += value
        if not isinstance(value, dict):
            continue
        for name, member in value.items():
            # (a member whose name begins with _ is an extension's)
            if name.startswith("_"):
                continue
            if isinstance(member, (dict, list)):
                waiting.append(member)
            elif name in _URLS and isinstance(member, Text):
                yield _written(source, member).stripped(member)._replace(asks=_URLS[name])
            elif name == "content_html" and isinstance(member, Text):
                place_of = _place_in(source, [member])
                for link in html_links.links_of(Source(member)).links:
                    yield moved(link, source, place_of, _STRING)
