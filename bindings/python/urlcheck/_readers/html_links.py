"""The links of an HTML document: each attribute that the HTML Standard gives a URL. Tags, comments and plain
text are told apart as the Standard's tokenizer does it (section 13.2.5), everywhere as in HTML, also within SVG and
MathML."""

import re
from html.entities import html5
from typing import Callable, Dict, FrozenSet, Iterator, List, Match, Optional, Tuple

from . import css_links
from .attributes import CANDIDATES, LISTS, NON_EMPTY, URLS
from .comments import comments_of
from .slots import AS_IT_IS, Syntax, as_before
from .source import SPACES, Asks, Contents, Link, NamedBase, Source, Written
from .source import base_of, moved, point_of, read, words_of

STYLES = frozenset("style fill stroke filter clip-path mask marker marker-start marker-mid marker-end cursor".split())
"""The attributes that have CSS: ``style``, and SVG's whose value may be a ``url()``."""

_TAKEN = {*URLS, *LISTS, *CANDIDATES, *STYLES}
_KEPT = {*_TAKEN, "content", "http-equiv"}

# An attribute of a tag: a name, and a value in quotes, in none, or with a quote that nothing closes.
_ATTRIBUTE = re.compile(
    r"[ \t\n\f\r/]*(?P<name>[^ \t\n\f\r/>][^ \t\n\f\r/>=]*)"
    r"(?:[ \t\n\f\r]*=[ \t\n\f\r]*"
    r"(?:\"(?P<double>[^\"]*)\"|'(?P<single>[^']*)'|(?P<open>[\"'])|(?P<bare>[^ \t\n\f\r>]*)))?"
)
_TAG_END = re.compile(r"[ \t\n\f\r/]*>")
# What is in these isn't markup. After `plaintext` nothing is.
_RAW = "script|style|textarea|title|xmp|iframe|noembed|noframes|plaintext"
_RAW_END = {
    name: re.compile("</{}(?=[ \t\n\f\r/>])".format(name), re.IGNORECASE | re.ASCII) for name in _RAW.split("|")
}
# Within a script a comment in which another script begins hides that one's end.
_SCRIPT = re.compile(
    "(?P<open><!--)|(?P<close>-->)|<(?P<slash>/?)script(?=[ \t\n\f\r/>])", re.IGNORECASE | re.ASCII
)
# What begins there: a tag, by its name; a comment; or what ends with the first `>`. Tags of which nothing is taken
# are passed over where that is plain: each of their few attributes has a space before it, and no value or one in
# quotes without `<`. So the next `<` is after them.
_NEXT = re.compile(
    "<(?!/?(?!(?i:{raw})[{space}/>])[A-Za-z]{name}*"
    "(?:[{space}]+(?!(?i:{taken}|content)[{space}/>=]){name}+(?:=\"[^\"<]*\"|='[^'<]*')?){{0,20}}[{space}]*/?>)"
    "(?:(?P<tag>/?[A-Za-z][^{space}/>]*)|(?P<comment>!--)|(?P<bogus>[!?/]))".format(
        raw=_RAW, taken="|".join(sorted(_TAKEN)), name="[^<>/=\"'{}]".format(SPACES), space=SPACES
    ),
    re.ASCII,
)
# What ends a comment, and what does so right after its beginning.
_COMMENT_END = re.compile("--!?>")
_NO_COMMENT = re.compile("-?>")
_REFERENCE = re.compile(
    r"&(?:#(?P<digits>[0-9]+);?|#[xX](?P<hex>[0-9A-Fa-f]+);?|(?P<name>[A-Za-z][A-Za-z0-9]*)(?P<end>[;=]?))"
)
# What is written before the URL of a refresh: a time, what ends it, and perhaps `url=` and a quote.
_REFRESH = re.compile(
    r"{0}*(?:[0-9]|(?=\.))[0-9.]*(?=[{1};,]){0}*[;,]?{0}*(?:url{0}*={0}*)?(?P<quote>[\"']?)".format(
        "[" + SPACES + "]", SPACES
    ),
    re.IGNORECASE,
)
# What ends a descriptor of an image candidate, or begins a part of one that no space and no comma ends.
_BREAK = re.compile("[(," + SPACES + "]")
_LIKE_DESCRIPTOR = re.compile(r"[-+]?[0-9.]+(?:e[-+]?[0-9]+)?[a-z]{0,2}|[wxh][0-9.]*", re.IGNORECASE)


def links_of(source: Source) -> Contents:
    """What is in an HTML document."""
    reader = _Reader(source)
    reader.read()
    return reader


class _Reader(Contents):
    """Collects the links of the start tags. What has no end reaches to the document's end, as in the Standard's
    tokenizer; so nothing is read twice."""

    def __init__(self, source: Source) -> None:
        super().__init__(source)
        self._text = source.text
        self._base: Optional[NamedBase] = None

    def read(self) -> None:
        """Reads the document."""
        at = 0
        while True:
            found = _NEXT.search(self._text, at)
            if found is None:
                return
            if found.lastgroup == "tag":
                at = self._read_tag(found)
            elif found.lastgroup == "comment":
                at = self._read_comment(found.end())
            else:
                # (`</>` is nothing, and a declaration or an instruction ends with the first `>`)
                at = self._text.find(">", found.end()) + 1 or len(self._text)

    def _read_comment(self, start: int) -> int:
        """Reads a comment whose text begins there, and gives where it ends."""
        ends = _NO_COMMENT.match(self._text, start) or _COMMENT_END.search(self._text, start)
        if ends is None:
            return len(self._text)
        self.comments += comments_of(self._text[start : ends.start()], start)
        return ends.end()

    def _read_tag(self, found: Match[str]) -> int:
        """Takes the links of a tag, and gives where it ends, or where what isn't markup ends after it."""
        attributes: Dict[str, Match[str]] = {}
        at = found.end()
        attribute = _ATTRIBUTE.match(self._text, at)
        while attribute is not None:
            if attribute.lastgroup == "open":
                return len(self._text)
            name = _lower(attribute["name"])
            if name in _KEPT:
                # (the first of a name counts)
                attributes.setdefault(name, attribute)
            at = attribute.end()
            attribute = _ATTRIBUTE.match(self._text, at)
        closed = _TAG_END.match(self._text, at)
        if closed is None:
            # (a tag that doesn't end isn't one)
            return len(self._text)
        tag = _lower(found["tag"])
        if tag.startswith("/"):
            return closed.end()
        self._take_all(tag, attributes)
        return self._read_raw(tag, closed.end()) if tag in _RAW_END else closed.end()

    def _take_all(self, tag: str, attributes: Dict[str, Match[str]]) -> None:
        """Takes the links of a start tag's attributes."""
        for name, found in attributes.items():
            if name in _TAKEN:
                self._take(tag, name, *_value(found))
        if tag == "meta" and "content" in attributes and "http-equiv" in attributes:
            if _value(attributes["http-equiv"])[0].strip(SPACES).lower() == "refresh":
                self.links += refreshes(*_value(attributes["content"]), self._base)

    def _read_raw(self, tag: str, start: int) -> int:
        """Gives where the text ends that begins there and isn't markup, and takes the links of a style sheet."""
        if tag == "plaintext":
            return len(self._text)
        if tag == "script":
            return _end_of_script(self._text, start)
        ends = _RAW_END[tag].search(self._text, start)
        end = ends.start() if ends else len(self._text)
        if tag == "style":
            self.add(styles_in(self._text[start:end], self.source, lambda place: start + place), self._base)
        return end

    def _take(self, tag: str, name: str, value: str, written: Written) -> None:
        """Takes the links of an attribute's value."""
        if name in STYLES:
            self.add(styles_in(value, self.source, written.place, written.syntax, False), self._base)
        elif has(URLS, name, tag):
            link = written.stripped(value, None if tag == "base" else self._base)
            if has(NON_EMPTY, name, tag):
                link = link._replace(asks=Asks.SOME)
            self.links.append(link)
            # The first base with an href counts.
            if tag == "base" and name == "href" and self._base is None:
                self._base = base_of(link.text)
        elif has(LISTS, name, tag):
            self.links += [written.link(word, at, self._base) for word, at in words_of(value)]
        elif has(CANDIDATES, name, tag):
            self.links += [written.link(word, at, self._base) for word, at in candidates(value)]


def _end_of_script(text: str, start: int) -> int:
    """Returns the end of the script's text that begins there, by the states of the Standard's tokenizer in which it is
    escaped."""
    is_escaped = is_inner = False
    found = _SCRIPT.search(text, start)
    while found is not None:
        at = found.end()
        if found["open"]:
            # (`<!-->` is a whole comment)
            is_escaped, at = True, at - 2
        elif found["close"]:
            is_escaped = is_inner = False
        elif found["slash"] and not is_inner:
            return found.start()
        else:
            is_inner = is_escaped and not found["slash"]
        found = _SCRIPT.search(text, at)
    return len(text)


def styles_in(
    text: str, source: Source, place_of: Callable[[int], int], outer: Syntax = AS_IT_IS, is_sheet: bool = True
) -> Contents:
    """What is in a style sheet, or in an attribute with styles, that is a part of a source and is written there in a
    syntax."""
    found = Contents(source)
    if css_links.NEEDED.search(text):
        try:
            styles = css_links.links_of(Source(text), is_sheet)
            found.links = [moved(it, source, place_of, outer) for it in styles.links]
            found.lost = [it._replace(offset=place_of(it.offset)) for it in styles.lost]
        except ImportError:
            found.notes.add(css_links.MISSING)
    return found


def has(table: Dict[str, FrozenSet[str]], name: str, tag: str) -> bool:
    """Whether the table has the attribute of the element."""
    return name in table and (not table[name] or tag in table[name])


def refreshes(value: str, written: Written, base: Optional[NamedBase]) -> List[Link]:
    """The link of a refresh, as the HTML Standard finds it in section 4.2.5.3, or none."""
    found = _REFRESH.match(value)
    if not found:
        return []
    link = value[found.end() :]
    if found["quote"]:
        link = link.partition(found["quote"])[0]
    at = found.end() + len(link) - len(link.lstrip(SPACES))
    return [written.link(link.strip(SPACES), at, base)] if link.strip(SPACES) else []


def _lower(name: str) -> str:
    """A name in lower case, as far as it is of ASCII."""
    return name.lower() if name.isascii() else name


def _value(found: Match[str]) -> Tuple[str, Written]:
    """The value of an attribute, and where it is."""
    kind = found.lastgroup or "name"
    if kind == "name":
        # (without a value it has the empty one, which is nowhere)
        return "", Written(found.end(kind), False)
    return unescaped(found[kind], found.start(kind))


def unescaped(raw: str, offset: int) -> Tuple[str, Written]:
    """An attribute's value that is there, with its character references read as the HTML Standard reads them in
    attributes: a name that no ``;`` ends stays where ``=``, a letter or a digit follows, as in ``?a=1&lt=2``."""
    if "&" not in raw:
        return raw, Written(offset, True, (), ATTRIBUTE)
    return read(raw, offset, _REFERENCE, _referred, ATTRIBUTE)


def _in_attribute(text: str, raw: str) -> str:
    """A text as an attribute has it in place of what was there: with references where that had some, or where it would
    be read as one."""
    if any(unescaped(it, 0)[0] != it for it in (raw, text)):
        text = text.replace("&", "&amp;")
    return as_before(text, raw, "\"'", lambda point: "&#{};".format(ord(point)))


ATTRIBUTE = Syntax(lambda raw: unescaped(raw, 0)[0], _in_attribute)
"""That of an attribute's value."""


def _referred(found: Match[str]) -> str:
    """What a character reference stands for, or the reference itself if it isn't one."""
    if found["name"] is None:
        digits, base = (found["digits"], 10) if found["digits"] else (found["hex"], 16)
        digits = digits.lstrip("0")
        # (a number of more than seven digits is above all code points)
        return _numbered(int(digits or "0", base) if len(digits) <= 7 else 0)
    if found["end"] == "=":
        return found[0]
    return html5.get(found["name"] + found["end"], found[0])


def _numbered(number: int) -> str:
    """The code point of a number: a number of C1 is read as windows-1252, and anything that isn't a code point as
    U+FFFD."""
    if 0x80 <= number < 0xA0:
        return bytes([number]).decode("cp1252", "ignore") or chr(number)
    return point_of(number)


def candidates(value: str) -> Iterator[Tuple[str, int]]:
    """The links of image candidates, each with where it begins. A list is taken apart as the HTML Standard parses a
    ``srcset``: commas and spaces, a URL, and descriptors up to a comma; a URL that ends in a comma has none.

    Words that aren't descriptors belong to the link, as of ``my photo.png 1x``: the Standard has no such candidate, and
    its author meant a URL with a space.
    """
    at = 0
    while at < len(value):
        if value[at] in SPACES + ",":
            at += 1
            continue
        start = at
        while at < len(value) and value[at] not in SPACES:
            at += 1
        end = start + len(value[start:at].rstrip(","))
        if end == at:
            at, end = _ends(value, at)
        yield value[start:end], start


def _ends(value: str, at: int) -> Tuple[int, int]:
    """Returns two ends: of the descriptors after the URL that ends at ``at``, and of the link if some of those words
    belong to it."""
    end = start = at
    is_link = True
    while True:
        found = _BREAK.search(value, at)
        at = found.start() if found else len(value)
        if found and found.group() == "(":
            at = value.find(")", at) + 1 or len(value)
            continue
        if is_link and start < at:
            is_link = not _is_like_descriptor(value[start:at])
            end = at if is_link else end
        if not found or found.group() == ",":
            return at, end
        at = start = at + 1


def _is_like_descriptor(word: str) -> bool:
    """Whether a word is a descriptor, or was perhaps to be one: a number, perhaps with a unit, or with parentheses."""
    return word.endswith(")") or _LIKE_DESCRIPTOR.fullmatch(word) is not None
