"""The links of an XML document, by Python's own ``xml.parsers.expat``: sitemaps, feeds, outlines, XHTML, SVG, XLink,
and the formats of ``xml_names``, which has the tables of elements and attributes that hold links."""

import re
from itertools import accumulate
from typing import Dict, List, NamedTuple, Optional, Tuple
from xml.parsers import expat

from . import attributes, html_links
from .comments import comments_of
from .slots import AS_IT_IS
from .source import SPACES, Asks, Broken, Contents, Link, NamedBase, Pieces, Source, Written
from .source import base_of, moved, read, words_of
from .xml_names import APPSTREAM, ATTRIBUTES, CATALOG, HTML_TEXTS, KNOWN, LIKE_LINKS, LIKE_TEXTS, NAMING_ATTRIBUTES
from .xml_names import NAMING_TEXTS, NOWHERE, OF_ANY_ELEMENT, OF_PAGES, POM, QUALIFIED, SVG, TEXTS, TYPED_TEXTS
from .xml_names import VOCABULARIES, XHTML, XML, Name
from .xml_texts import ATTRIBUTE, MARKUP, TEXT

MOST_DEPTH = 10_000
"""How many elements may be within one another."""

UNKNOWN = (
    "its names aren't known: only each href, url and src, and each element url and link, is read, where its value has "
    "a scheme"
)
"""What is said about a document in which no name is known."""

_SCHEME = re.compile("[A-Za-z][A-Za-z0-9+.-]*:")
"""The beginning of a value that counts as a link in a document in which no name is known."""

_NAMING = re.compile("[A-Za-z][A-Za-z0-9+.-]*://|urn:", re.IGNORECASE)
"""The beginning of a value that names something by a URL, in elements that may also use another word."""

_PLACEHOLDER = "${"
"""What a value of a project's file has that is filled in later."""


class _Taking(NamedTuple):
    """What the text of an element is taken for."""

    is_html: bool = False
    """Whether it is HTML, with links in it."""
    is_style: bool = False
    """Whether it is a style sheet."""
    is_likely: bool = False
    """Whether it is taken only if no name of the document is known, and it has a scheme: otherwise it may be any
    text."""
    is_naming: bool = False
    """Whether it counts only if it begins like a URL, in an element that may also name something by another word."""
    asks: Asks = Asks.REFERENCE
    """What it has to be: a reference, say, or a URL with a scheme."""


# What the parser makes one code point of, so that places after it move.
_REFERENCE = re.compile("&[^;]*;|\r\n")

# The start of a start tag, and an attribute of it; both are well-formed.
_NAME = re.compile(r"<[^\s/>]+")
_TARGET = re.compile(r"<\?[^\s?]+")
_ATTRIBUTE = re.compile(r"\s+(?P<name>[^\s=]+)\s*=\s*(?:\"(?P<double>[^\"]*)\"|'(?P<single>[^']*)')")


def links_of(source: Source, data: bytes) -> Contents:
    """What is in an XML document, given by its text and its bytes."""
    reader = _Reader(source, data)
    try:
        reader.parser.Parse(data, True)
    except expat.ExpatError as error:
        reader.broken = reader.failed(expat.ErrorString(error.code))
    except Broken as stopped:
        reader.broken = stopped
    if not reader.is_known and reader.broken is None:
        reader.links += reader.likely
        reader.notes.add(UNKNOWN)
    return reader


class _Reader(Contents):
    """Collects the links of the elements."""

    def __init__(self, source: Source, data: bytes) -> None:
        super().__init__(source)
        # The document is UTF-8, whatever it says of itself.
        self.parser = expat.ParserCreate("utf-8", " ")
        self.parser.ordered_attributes = True
        self.parser.specified_attributes = True
        self.parser.buffer_text = False
        self.parser.StartElementHandler = self._start
        self.parser.EndElementHandler = self._end
        self.parser.CharacterDataHandler = self._characters
        self.parser.CommentHandler = self._comment
        self.parser.ProcessingInstructionHandler = self._instruction
        self.parser.EntityDeclHandler = self._entity
        self._data = data
        # (code points and bytes are the same places in a document of ASCII)
        self._is_ascii = len(data) == len(source.text)
        self._seen_bytes = 0
        self._seen_points = 0
        # What `xml:base` names for each element that isn't ended, and what the first `base` of XHTML names.
        self._bases: List[Optional[NamedBase]] = [None]
        self._page_base: Optional[NamedBase] = None
        self._named: Dict[Tuple[str, Optional[NamedBase]], NamedBase] = {}
        # What a name without a namespace means, and whether a name was known.
        self._vocabulary = NOWHERE
        self.is_known = False
        # What are likely links, if none is.
        self.likely: List[Link] = []
        # The text of the element that is being read, if it has links: its pieces with their places.
        self._taking = _Taking()
        self._began = 0
        self._pieces: Optional[List[Tuple[str, int]]] = None

    def failed(self, reason: str) -> Broken:
        """Why the parser stopped. (Of a document that ends within an element it says that it has found none.)"""
        is_within = reason == expat.errors.XML_ERROR_NO_ELEMENTS and len(self._bases) > 1
        return self._stopped("the document ends within an element" if is_within else reason)

    def _stopped(self, reason: str) -> Broken:
        """Why the document can't be read from here on. (The parser's own lines end with a carriage return too.)"""
        return Broken(self._offset(), reason)

    def _offset(self) -> int:
        """Returns the beginning, in the source, of what is being read, in code points."""
        # (an old parser says -1 of an empty document)
        at = max(0, self.parser.CurrentByteIndex)
        if self._is_ascii:
            return at
        if at < self._seen_bytes:
            self._seen_bytes = self._seen_points = 0
        self._seen_points += len(self._data[self._seen_bytes : at].decode("utf-8", "replace"))
        self._seen_bytes = at
        return self._seen_points

    def _entity(self, *_: object) -> None:
        """Stops at a declared entity: its text has no place in the document, and a few of them may grow to any
        length."""
        raise self._stopped("an entity is declared, but only the five of XML are expanded")

    def _comment(self, data: str) -> None:
        """Takes a comment, which may say that links are left out."""
        self.comments += comments_of(data, self._offset() + len("<!--"))

    def _instruction(self, target: str, data: str) -> None:
        """Takes the link of a style sheet's instruction before the outermost element; further down it isn't one."""
        start = self._offset()
        end = self.source.text.find("?>", start)
        found = _TARGET.match(self.source.text, start, end)
        while found and target == "xml-stylesheet":
            found = _ATTRIBUTE.match(self.source.text, found.end(), end)
            if found and found["name"] == "href":
                # (each reference of XML is one of HTML)
                kind = found.lastgroup or "double"
                value, written = html_links.unescaped(found[kind], found.start(kind))
                self.links.append(written.stripped(value))

    def _start(self, name: str, attributes: List[str]) -> None:
        """Begins an element. The outermost one says which names are known, if its own has no namespace."""
        if len(self._bases) > MOST_DEPTH:
            raise self._stopped("more than {} elements are within one another".format(MOST_DEPTH))
        element = _split(name)
        if len(self._bases) == 1:
            self.parser.ProcessingInstructionHandler = None
            self._vocabulary = VOCABULARIES.get(element[1], NOWHERE) if element[0] in ("", POM) else NOWHERE
            if self._vocabulary == APPSTREAM and "media_baseurl" in attributes[::2]:
                self._vocabulary = CATALOG
        if element[0] == "":
            element = (self._vocabulary, element[1])
        names = [_split(it) for it in attributes[::2]]
        self.is_known = self.is_known or element[0] in KNOWN or element[1] == "loc"
        taking = _taking(element, dict(zip(names, attributes[1::2])))
        self._taking, self._pieces = taking or self._taking, [] if taking else None
        self._began = self._offset() if taking else 0
        base = self._bases[-1]
        if attributes:
            base = self._take_attributes(element, names, attributes[1::2])
        self._bases.append(base)

    def _take_attributes(self, element: Name, names: List[Name], values: List[str]) -> Optional[NamedBase]:
        """Takes the links of a start tag, and gives what ``xml:base`` names within the element."""
        base = self._bases[-1]
        is_meta = element == (XHTML, "meta")
        is_wanted = is_meta or any(
            _is_url(element, it) or it == (XML, "base") or _is_style(element, it) or _is_naming(element, it)
            for it in names
        )
        if not is_wanted and (self.is_known or not any(it[1] in LIKE_LINKS for it in names)):
            return base
        places = self._places(self._offset(), values)
        for name, value, written in zip(names, values, places):
            if name == (XML, "base"):
                around = self._of_element(element, base)
                self.links.append(written.stripped(value, around))
                key = self.links[-1].text, around
                base = self._named.setdefault(key, NamedBase(*key))
        for name, value, written in zip(names, values, places):
            if _is_url(element, name) or (_is_naming(element, name) and _NAMING.match(value.lstrip(SPACES))):
                self.is_known = True
                self._take(element, name[1], value, written, base)
            elif _is_style(element, name):
                styles = html_links.styles_in(value, self.source, written.place, written.syntax, False)
                self.add(styles, self._of_element(element, base))
            elif not self.is_known and name[0] == "" and name[1] in LIKE_LINKS and _SCHEME.match(value.lstrip(SPACES)):
                self.likely.append(written.stripped(value, base))
            elif is_meta and name == ("", "content") and _is_refresh(names, values):
                self.links += html_links.refreshes(value, written, self._of_element(element, base))
        return base

    def _of_element(self, element: Name, base: Optional[NamedBase]) -> Optional[NamedBase]:
        """What is named for an element by ``xml:base`` around it, otherwise by the ``base`` of its page."""
        return self._page_base if base is None and element[0] in OF_PAGES else base

    def _take(self, element: Name, name: str, value: str, written: Written, base: Optional[NamedBase]) -> None:
        """Takes the links of an attribute's value."""
        if (element, name) == ((XHTML, "base"), "href"):
            # (which is relative to the document's address, whatever is around it, and of which the first counts)
            self.links.append(written.stripped(value))
            self._page_base = self._page_base or base_of(self.links[-1].text)
            return
        base = self._of_element(element, base)
        if element[0] == XHTML and html_links.has(attributes.LISTS, name, element[1]):
            self.links += [written.link(word, at, base) for word, at in words_of(value)]
        elif element[0] == XHTML and html_links.has(attributes.CANDIDATES, name, element[1]):
            self.links += [written.link(word, at, base) for word, at in html_links.candidates(value)]
        else:
            is_some = element[0] == XHTML and html_links.has(attributes.NON_EMPTY, name, element[1])
            asks = Asks.SOME if is_some else Asks.REFERENCE
            self.links.append(written.stripped(value, base)._replace(asks=asks))

    def _places(self, start: int, values: List[str]) -> List[Written]:
        """Returns the places of the values of the start tag there, except for namespaces."""
        places: List[Written] = []
        name = _NAME.match(self.source.text, start)
        found = name and _ATTRIBUTE.match(self.source.text, name.end())
        while found:
            if found["name"] != "xmlns" and not found["name"].startswith("xmlns:"):
                kind = found.lastgroup or "double"
                places.append(_written(found[kind], found.start(kind), values[len(places)]))
            found = _ATTRIBUTE.match(self.source.text, found.end())
        return places

    def _characters(self, data: str) -> None:
        """Keeps a piece of an element's text, of which the parser gives several, with its place."""
        if self._pieces is not None:
            self._pieces.append((data, self._offset()))

    def _end(self, _: str) -> None:
        """Ends an element, and takes its text if it is a link, or has some."""
        base = self._bases.pop()
        pieces, self._pieces = self._pieces, None
        if pieces is None:
            return
        if not pieces and self._taking.asks is Asks.ABSOLUTE:
            # (what has no content is nowhere: then the element's own place is told)
            end = self._offset()
            pieces = [("", self._began if self.source.text.startswith("/>", end - 2) else end)]
        if not pieces:
            return
        value = "".join(piece for piece, _ in pieces)
        after = [("", self._offset())] if value else []
        written = Written(0, False, _places_of(pieces + after), TEXT)
        if self._taking.is_html:
            self._take_html(value, written, base)
            return
        if self._taking.is_style:
            styles = html_links.styles_in(value, self.source, written.place, TEXT)
            self.add(styles, self._page_base if base is None else base)
            return
        link = written.stripped(value, base)._replace(asks=self._taking.asks)
        if self.source.text.startswith(link.text, link.offset):
            # (in a CDATA section nothing is a reference)
            is_cdata = MARKUP.search(link.text) is not None
            link = link._replace(is_verbatim=True, pieces=(), syntax=AS_IT_IS if is_cdata else TEXT)
        if self._taking.is_likely:
            self.likely += [link] * bool(_SCHEME.match(link.text))
        elif self._taking.is_naming:
            self.links += [link] * bool(_NAMING.match(link.text))
        elif (link.text or link.asks is Asks.ABSOLUTE) and _PLACEHOLDER not in link.text:
            self.links.append(link)

    def _take_html(self, value: str, written: Written, base: Optional[NamedBase]) -> None:
        """Takes the links of HTML that is the text of an element."""
        if "<" not in value:
            return
        html = html_links.links_of(Source(value))
        html.lost = [it._replace(offset=written.place(it.offset)) for it in html.lost]
        html.links = [moved(link, self.source, written.place, TEXT) for link in html.links]
        self.add(html, base)


_ICONS = {(APPSTREAM, "icon"), (CATALOG, "icon")}
"""The elements whose text is a URL if their ``type`` is ``remote``."""


def _taking(element: Name, values: Dict[Name, str]) -> Optional[_Taking]:
    """What the text of an element with these attributes is taken for, if it has links."""
    if element in HTML_TEXTS or (element in TYPED_TEXTS and values.get(("", "type")) == "html"):
        return _Taking(is_html=True)
    if element == ("", "guid") and values.get(("", "isPermaLink")) == "false":
        return None
    if element in _ICONS and values.get(("", "type")) != "remote":
        return None
    if element[1] == "style" and element[0] in OF_PAGES:
        return _Taking(is_style=True)
    if element[1] == "loc":
        return _Taking(asks=Asks.ABSOLUTE)
    if element in TEXTS:
        return _Taking(asks=TEXTS[element])
    if element in NAMING_TEXTS:
        return _Taking(is_naming=True)
    if element[0] not in KNOWN and element[1] in LIKE_TEXTS:
        return _Taking(is_likely=True)
    return None


def _places_of(read_pieces: List[Tuple[str, int]]) -> Pieces:
    """Returns the place of a text that was read in these pieces, each with its place."""
    lengths = accumulate((len(piece) for piece, _ in read_pieces[:-1]), initial=0)
    return tuple(zip(lengths, (place for _, place in read_pieces)))


def _written(raw: str, offset: int, value: str) -> Written:
    """Returns the place of an attribute's value that is written so."""
    if raw == value:
        return Written(offset, True, (), ATTRIBUTE)
    # (each reference stands for a code point, and so does the end of a line)
    text, found = read(raw, offset, _REFERENCE, lambda _: "x")
    pieces = ((0, offset),) if found.is_verbatim else found.pieces
    return Written(offset, False, pieces if len(text) == len(value) else (), ATTRIBUTE)


def _split(name: str) -> Name:
    """A name's namespace and local name."""
    namespace, _, local = name.rpartition(" ")
    return namespace, local


def _is_refresh(names: List[Name], values: List[str]) -> bool:
    """Whether the attributes make a refresh."""
    return any(name == ("", "http-equiv") and value.lower() == "refresh" for name, value in zip(names, values))


def _is_style(element: Name, name: Name) -> bool:
    """Whether an attribute has CSS: `style` on every element of a page, and SVG's attributes."""
    styles = html_links.STYLES if element[0] == SVG else ("style",)
    return element[0] in OF_PAGES and name[0] == "" and name[1] in styles


def _is_naming(element: Name, name: Name) -> bool:
    """Whether an attribute's value names something, by a URL or by another word."""
    return element in NAMING_ATTRIBUTES and name[0] == "" and name[1] in NAMING_ATTRIBUTES[element]


def _is_url(element: Name, name: Name) -> bool:
    """Whether an attribute's value is a URL, or a list of them."""
    if name in QUALIFIED or (element in ATTRIBUTES and name[0] == "" and name[1] in ATTRIBUTES[element]):
        return True
    if name[0]:
        return False
    if element[0] in OF_ANY_ELEMENT:
        return name[1] in OF_ANY_ELEMENT[element[0]]
    if element[0] == XHTML:
        tables = (attributes.URLS, attributes.LISTS, attributes.CANDIDATES)
        return any(html_links.has(table, name[1], element[1]) for table in tables)
    return element[0] == SVG and name[1] == "href"
