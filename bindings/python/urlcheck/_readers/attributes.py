"""The attributes of HTML that hold links. tools/write-attributes makes this of its list."""

from typing import Dict, FrozenSet

# The elements of an attribute are named after it; none are where every element may have it.

URLS: Dict[str, FrozenSet[str]] = {
    "action": frozenset("form".split()),
    "cite": frozenset("blockquote del ins q".split()),
    "data": frozenset("object".split()),
    "formaction": frozenset("button input".split()),
    "href": frozenset(),
    "itemid": frozenset(),
    "manifest": frozenset("html".split()),
    "poster": frozenset("video".split()),
    "src": frozenset("audio embed frame iframe image img input script source track video".split()),
    "xlink:href": frozenset(),
}
"""The attributes whose value is a URL."""

LISTS: Dict[str, FrozenSet[str]] = {
    "itemtype": frozenset(),
    "ping": frozenset("a area".split()),
}
"""The attributes whose value is a list of URLs with spaces between them."""

CANDIDATES: Dict[str, FrozenSet[str]] = {
    "imagesrcset": frozenset("link".split()),
    "srcset": frozenset("img source".split()),
}
"""The attributes whose value is a list of image candidates."""

NON_EMPTY: Dict[str, FrozenSet[str]] = {
    "action": frozenset("form".split()),
    "data": frozenset("object".split()),
    "formaction": frozenset("button input".split()),
    "href": frozenset("link".split()),
    "poster": frozenset("video".split()),
    "src": frozenset("audio embed frame iframe image img input script source track video".split()),
}
"""The attributes whose value may not be empty, by their elements, as the HTML Standard says of each."""
