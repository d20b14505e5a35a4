#!/usr/bin/env python3
"""bench/documents.py FOLDER..: compares the links that urlcheck.documents finds in HTML pages with the links that lxml finds.

Prints each page whose links differ, with the links that only one of the two found. Each link that stands in the source as
it is has to begin at its line and column. Then how many pages a minute were read. It needs python3-lxml, and the
package with its library on PYTHONPATH. The status is 0 where nothing differs, 1 where something does.
"""

import os
import re
import sys
import time
from collections import Counter

try:
    from lxml import etree
except ImportError:
    sys.exit("bench/documents.py: lxml is missing (Debian: python3-lxml)")
from urlcheck._readers.html_links import CANDIDATES, LISTS, URLS, candidates, has
from urlcheck._readers.reading import found_in
from urlcheck._readers.source import SPACES

REFRESH = re.compile(r"[\s0-9.]*[;,]?\s*(?:url\s*=\s*)?[\"']?([^\"']*)", re.IGNORECASE)


def by_lxml(data):
    """The links of a page, read by lxml with the same table of attributes."""
    found = Counter()
    root = etree.fromstring(data, etree.HTMLParser(encoding="utf-8", huge_tree=True))
    for element in () if root is None else root.iter(etree.Element):
        for name, value in element.attrib.items():
            if has(URLS, name, element.tag):
                found[value.strip(SPACES)] += 1
            elif has(LISTS, name, element.tag):
                found.update(value.split())
            elif has(CANDIDATES, name, element.tag):
                found.update(word for word, _ in candidates(value))
        if element.tag == "meta" and element.get("http-equiv", "").strip().lower() == "refresh":
            link = REFRESH.match(element.get("content", ""))[1].strip(SPACES)
            found.update([link] if link else [])
    return found


def by_lines(text):
    """The lines of a text, cut only at line feeds."""
    return text.split("\n")


def misplaced(source, links):
    """The links that don't begin where they are said to."""
    lines = by_lines(source.text)
    for link in links:
        line, column = source.position(link.offset)
        rest = "\n".join([lines[line - 1][column - 1 :], *lines[line : line + link.text.count("\n")]])
        if link.is_verbatim and not rest.startswith(link.text):
            yield line, column, link.text


def main():
    pages = links = differing = wrong = 0
    seconds = 0.0
    names = [os.path.join(at, file) for folder in sys.argv[1:] for at, _, files in os.walk(folder) for file in files]
    for name in sorted(it for it in names if it.endswith((".html", ".htm"))):
        with open(name, "rb") as file:
            data = file.read()
        started = time.perf_counter()
        (page,) = found_in(data, "html")
        seconds += time.perf_counter() - started
        source, found = page.source, page.links
        pages += 1
        links += len(found)
        ours, others = Counter(link.text for link in found), by_lxml(data)
        if ours != others:
            differing += 1
            print("{}: alone here {}, alone by lxml {}".format(name, dict(ours - others), dict(others - ours)))
        for place in misplaced(source, found):
            wrong += 1
            print("{}:{}:{}: isn't {!r}".format(name, *place))
    print("{} pages, {} links, {} pages differ, {} places wrong".format(pages, links, differing, wrong))
    if not pages:
        sys.exit("bench/documents.py: no page was found")
    print("{:.0f} pages a minute".format(60 * pages / seconds))
    return 1 if differing or wrong else 0


if __name__ == "__main__":
    sys.exit(main())
