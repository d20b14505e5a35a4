"""The links of a Markdown document (CommonMark), with the package ``markdown-it-py``, and the links of the HTML within it.

That of GitHub has bare addresses too, which are found as its specification says it (GFM 0.29, section 6.9).
"""

import re
from types import SimpleNamespace
from typing import Any, Callable, Dict, List, Optional, Set, Tuple

from . import bare_links, html_links, mdx, spaced_links
from .comments import comments_of
from .destinations import BRACKETED, DESTINATION, ESCAPE, spaced_link, unescaped
from .front_matter import front_matter_of
from .source import Contents, Link, Source, read


class _Destination(str):
    """A link's destination, with the text that it was read from, where it began there, and how it is written there."""

    content: Optional[str] = None
    at = 0
    raw = ""
    is_bracketed = False


class Inlines:
    """What blocks of Markdown were read as, kept from one reading of a text to the next: most of a text that is edited
    stays as it is. A block is read by its content and by the references that there are."""

    def __init__(self) -> None:
        self._kept: Dict[str, List[Any]] = {}
        self._used: Dict[str, List[Any]] = {}
        self._references: Set[str] = set()
        self.covered: Dict[str, List[Tuple[int, int]]] = {}
        """The parts of a block's content that aren't plain text, by where they begin and end."""
        self.labels: Dict[str, List[int]] = {}
        """Where labels end in a block's content behind which there is a destination with a space."""
        self._spaced: Tuple[str, Dict[int, spaced_links.Spaced]] = ("", {})

    def begin(self, references: Set[str]) -> None:
        """Begins a reading; what the last one didn't have is forgotten."""
        is_same = references == self._references
        self._kept, self._used = (self._used if is_same else {}), {}
        self.covered = {it: self.covered[it] for it in self._kept if it in self.covered}
        self.labels = {it: self.labels[it] for it in self._kept if it in self.labels}
        self._references = references

    def read(self, content: str, read: Callable[[str], List[Any]]) -> List[Any]:
        """What a block's content is read as."""
        found = self._used.get(content) or self._kept.get(content)
        if found is None:
            self.covered.pop(content, None)
            self.labels.pop(content, None)
            found = read(content)
        self._used[content] = found
        return found

    def spaced(self, content: str) -> Dict[int, spaced_links.Spaced]:
        """The destinations with a space behind what may be a label of a block's content."""
        if self._spaced[0] is not content:
            self._spaced = content, spaced_links.destinations_in(content)
        return self._spaced[1]


def links_of(
    source: Source, is_gfm: bool = False, inlines: Optional[Inlines] = None, is_mdx: bool = False
) -> Contents:
    """What is in a Markdown document, or in one of MDX.

    Its front matter isn't a text. What blocks were read as is kept in ``inlines``, for one choice of ``is_gfm``. Raises
    ``ImportError`` where ``markdown-it-py`` isn't installed.
    """
    front = front_matter_of(source.text)
    text = _without(source.text, front[0]) if front else source.text
    code = mdx.masked(text, front[0] if front else 0) if is_mdx else None
    reader = _Reader(source, is_gfm, inlines or Inlines(), code)
    environment: Dict[str, Any] = {}
    tokens = reader.markdown.parse(code.text if code else text, environment)
    reader.inlines.begin(set(environment.get("references", {})))
    for token in tokens:
        reader.take(token, environment)
    reader.take_references(environment)
    if code:
        reader.links += html_links.links_of(Source(code.tags)).links
        reader.links = [it for it in reader.links if mdx.FILLER not in it.text]
        reader.comments += code.comments
        reader.lost += code.lost
    if front:
        reader.links += front[1].links
        reader.lost += front[1].lost
    reader.links.sort(key=lambda link: link.offset)
    return reader


def _without(text: str, end: int) -> str:
    """A text whose beginning is replaced by empty lines, so that the rest keeps its places."""
    return re.sub("[^\r\n]", " ", text[:end]) + text[end:]


class _Reader(Contents):
    """Collects the links of the tokens."""

    def __init__(self, source: Source, is_gfm: bool, inlines: Inlines, code: Optional[mdx.Masked] = None) -> None:
        from markdown_it import MarkdownIt, helpers, rules_block, rules_inline

        super().__init__(source)
        self.markdown: Any = MarkdownIt("commonmark")
        self.markdown.block.ruler.at("reference", _near(rules_block.reference))
        # (the inside of a block is read here, once for all blocks that are the same)
        self.markdown.core.ruler.disable(["inline"])
        # (no link depends on what these rules find, which takes time by the square of a block's length)
        self.markdown.disable(["emphasis", "balance_pairs", "entity"])
        if code is not None:
            self.markdown.disable(["code", "html_block", "html_inline", "autolink"])
        self.inlines = inlines
        self._is_gfm = is_gfm
        for name, rule in (
            ("autolink", _placing(rules_inline.autolink)),
            ("html_inline", _placing(rules_inline.html_inline)),
            ("backticks", rules_inline.backtick),
            ("link", rules_inline.link),
            ("image", rules_inline.image),
        ):
            self.markdown.inline.ruler.at(name, _covering(rule, inlines) if is_gfm else rule)
        self.markdown.inline.ruler.before("link", "label", _noting(helpers.parseLinkLabel, inlines))
        self.markdown.inline.ruler.before("escape", "long text", _ends_long_text)
        self.markdown.helpers = SimpleNamespace(
            parseLinkLabel=helpers.parseLinkLabel,
            parseLinkTitle=helpers.parseLinkTitle,
            parseLinkDestination=self._destination,
        )
        # The links are wanted as they are written.
        self.markdown.normalizeLink = self._placed
        self.markdown.validateLink = lambda _: True
        self._parse = helpers.parseLinkDestination
        self._last: Tuple[str, int, Any] = ("", 0, None)
        # The same as the package reads it, place by place: there a carriage return ends a line too.
        text = re.sub("\r(?!\n)", "\n", code.text if code else source.text).replace("\0", "\ufffd")
        self._seen = source if text == source.text else Source(text)
        # What was looked at last: a block's content, and one of its lines with how far it is shifted.
        self._block: Tuple[str, Source] = ("", Source(""))
        self._lines: Tuple[Tuple[int, int], str, Optional[int]] = ((0, 0), "", None)

    def _destination(self, text: str, at: int, end: int) -> Any:
        """The package's reader of destinations, which notes where each is, since the token of a link doesn't say it."""
        result = self._parse(text, at, end)
        if not result.ok and text.startswith(")", at, end):
            # `[a]()` has an empty destination.
            result.ok, result.pos, result.str = True, at, ""
        self._last = (text, at, result)
        return result

    def _placed(self, url: str) -> str:
        """A destination with its place, in place of the package's escaped one: it is called right after
        ``_destination``."""
        placed = _Destination(url)
        text, at, result = self._last
        if result is not None and result.str == url:
            raw = text[at : result.pos]
            is_bracketed = raw.startswith("<") and raw.endswith(">")
            placed.content = text
            placed.at, placed.is_bracketed = at + is_bracketed, is_bracketed
            placed.raw = raw[1:-1] if is_bracketed else raw
        self._last = ("", 0, None)
        return placed

    def take(self, token: Any, environment: Dict[str, Any]) -> None:
        """Takes the links of a block."""

        def read(content: str) -> List[Any]:
            children: List[Any] = []
            self.markdown.inline.parse(content, self.markdown, environment, children)
            return children

        if token.type == "html_block":
            self._take_html(token.map[0], token.content, token.content, 0)
        elif token.type == "inline":
            self._take_inline(token, self.inlines.read(token.content, read))

    def _take_inline(self, block: Any, children: List[Any]) -> None:
        """Takes the links of a block's text."""
        self._take_spaced(block.map[0], block.content)
        for token in children:
            if token.type == "html_inline":
                self._take_html(block.map[0], block.content, token.content, token.meta[_AT])
            elif token.type in ("link_open", "image"):
                url = token.attrGet("href" if token.type == "link_open" else "src")
                if token.info == "auto":
                    self._take_autolink(block, url, token.meta[_AT] + 1)
                elif url.content == block.content:
                    self._take_destination(block.map[0], url)

    def _take_spaced(self, line: int, content: str) -> None:
        """Takes what looks like a link in a block's text and has a space, and of GitHub's Markdown the addresses that
        are there without more."""
        labels = self.inlines.labels.get(content, [])
        spaced = [self.inlines.spaced(content)[it] for it in sorted(set(labels))]
        spaced += spaced_links.definitions_in(content)
        links = [spaced_link(it) for it in spaced]
        if self._is_gfm:
            covered = [(it.begin, it.begin + len(it.text)) for it in spaced]
            links += bare_links.links_of(content, self.inlines.covered.get(content, []) + covered)
        for link in links:
            start = self._offset(line, content, link.offset)
            if start is not None:
                is_verbatim = link.is_verbatim and self.source.text.startswith(link.text, start)
                pieces = link.pieces and tuple((begin, start + place - link.offset) for begin, place in link.pieces)
                self.links.append(link._replace(offset=start, is_verbatim=is_verbatim, pieces=pieces))

    def _take_autolink(self, block: Any, url: str, at: int) -> None:
        """Takes ``<http://a/>``; an e-mail address isn't a URL as it is."""
        start = self._offset(block.map[0], block.content, at)
        if start is not None and block.content.startswith(url, at):
            self.links.append(Link(str(url), start, True))

    def take_references(self, environment: Dict[str, Any]) -> None:
        """Takes the links of the definitions ``[name]: link``."""
        definitions = list(environment.get("references", {}).values()) + environment.get("duplicate_refs", [])
        for definition in definitions:
            line, title = definition["map"][0], definition["title"]
            # (a definition that leads nowhere is how Markdown has comments: `[//]: # (text)`)
            start = self._seen.offset(line + 1, 0)
            comments = comments_of(title, self.source.text.find(title, start)) if definition["href"] == "#" else ()
            self.comments += comments
            if not comments:
                self._take_destination(line, definition["href"])

    def _take_destination(self, line: int, url: _Destination) -> None:
        """Takes a link whose destination is in a block, at its place there; otherwise at its block's line."""
        if url.content is None:
            return
        start = self._offset(line, url.content, url.at)
        if start is None:
            self.links.append(Link(str(url), self._seen.offset(line + 1, 0), False))
            return
        value, written = read(url.raw, start, ESCAPE, unescaped, BRACKETED if url.is_bracketed else DESTINATION)
        is_there = value == url and self.source.text.startswith(url.raw, start)
        self.links.append(written.link(value) if is_there else Link(str(url), start, False))

    def _take_html(self, line: int, content: str, html: str, at: int) -> None:
        """Takes the links of HTML that is at a place of a block's content. It is read without what nests the block,
        which may be within a tag of several lines."""
        found = html_links.links_of(Source(html))
        self.notes |= found.notes
        self.links += [self._moved(link, line, content, at) for link in found.links]
        for lost in found.lost:
            start = self._offset(line, content, at + lost.offset)
            self.lost.append(lost._replace(offset=self._seen.offset(line + 1, 0) if start is None else start))
        for comment in found.comments:
            start = self._offset(line, content, at + comment.offset)
            if start is not None:
                self.comments.append(comment._replace(offset=start))

    def _moved(self, link: Link, line: int, content: str, at: int) -> Link:
        """A link of HTML that begins at a place of a block's content, with its places in the source."""
        begins = link.pieces or ((0, link.offset),)
        found = [(begin, self._offset(line, content, at + place)) for begin, place in begins]
        pieces = tuple((begin, place) for begin, place in found if place is not None)
        if len(pieces) < len(found):
            return link._replace(offset=self._seen.offset(line + 1, 0), is_verbatim=False, base=None, pieces=())
        offset = pieces[0][1]
        is_verbatim = link.is_verbatim and self.source.text.startswith(link.text, offset)
        return link._replace(offset=offset, is_verbatim=is_verbatim, base=None, pieces=pieces)

    def _offset(self, line: int, content: str, at: int) -> Optional[int]:
        """The source's place for a place in a block's content, which lacks the markup around the block; none if it
        isn't found."""
        if self._block[0] is not content:
            self._block = content, Source(content)
        number, column = self._block[1].position(at)
        key = line, number
        if self._lines[0] != key or self._lines[1] is not content:
            self._lines = key, content, self._shift(line, number)
        shift = self._lines[2]
        return None if shift is None else self._seen.offset(line + number, column - 1 + shift)

    def _shift(self, line: int, number: int) -> Optional[int]:
        """How many columns further right a line of the content is in the source."""
        content = self._block[1].line(number)
        within, written = content.strip(), self._seen.line(line + number).rstrip()
        start = len(written) - len(within) if written.endswith(within) else written.find(within)
        return None if start < 0 else start - (len(content) - len(content.lstrip()))


_LONG_TEXT = 8192
"""From how many code points on a text goes on in another token."""


def _ends_long_text(state: Any, silent: bool) -> bool:
    """A rule that takes nothing, and makes a token of the text so far where it is long: the package copies all of it
    for each piece that it adds to it, and so takes time by the square of its length."""
    if not silent and len(state.pending) > _LONG_TEXT:
        state.pushPending()
    return False


_AHEAD = 4
"""How many lines a definition is looked for in at first: nearly all definitions fit in them."""


def _near(rule: Callable[..., bool]) -> Callable[..., bool]:
    """The rule of definitions, applied to only the next few lines if they are enough: the rule itself looks at all
    lines of a block for each definition, and so takes time by the square of their number."""

    def near(state: Any, start: int, end: int, silent: bool) -> bool:
        last = state.lineMax
        if start + _AHEAD < last and not _may_have_title(state, start):
            state.lineMax = start + _AHEAD
            is_found = rule(state, start, end, silent)
            state.lineMax = last
            if is_found:
                return True
        return rule(state, start, end, silent)

    return near


def _may_have_title(state: Any, start: int) -> bool:
    """Whether one of the next lines begins with a quote or a parenthesis, as a definition's title does. A title may go
    on for any number of lines, so then all lines of the block are wanted."""
    begins = (state.bMarks[line] + state.tShift[line] for line in range(start + 1, start + _AHEAD + 1))
    return any(state.src[at : at + 1] in ("'", '"', "(") for at in begins)


_AT = "at"
"""The key of a token's ``meta`` under which ``_placing`` keeps its place: the package itself keeps none."""


def _placing(rule: Callable[[Any, bool], bool]) -> Callable[[Any, bool], bool]:
    """A rule whose tokens get the place where they begin in their block's content."""

    def placing(state: Any, silent: bool) -> bool:
        at, count = state.pos, len(state.tokens)
        is_found = rule(state, silent)
        for token in state.tokens[count:]:
            token.meta[_AT] = at
        return is_found

    return placing


_WORD = re.compile("[A-Za-z0-9_]")
"""What is before ``[`` where something is taken out of a list, as in ``handlers[i](event, data)``."""


def _noting(label_end: Callable[[Any, int], int], inlines: Inlines) -> Callable[[Any, bool], bool]:
    """A rule that takes nothing, and notes where labels end behind which there is a destination with a space."""

    def noting(state: Any, silent: bool) -> bool:
        at = state.pos
        if silent or state.src[at] != "[" or not inlines.spaced(state.src):
            return False
        if not _WORD.match(state.src[at - 1 : at]):
            end = label_end(state, at)
            if end in inlines.spaced(state.src):
                inlines.labels.setdefault(state.src, []).append(end)
        return False

    return noting


def _covering(rule: Callable[[Any, bool], bool], inlines: Inlines) -> Callable[[Any, bool], bool]:
    """A rule that notes where what it finds begins and ends, for each content of a block."""

    def covering(state: Any, silent: bool) -> bool:
        at = state.pos
        is_found = rule(state, silent)
        if is_found and not silent:
            inlines.covered.setdefault(state.src, []).append((at, state.pos))
        return is_found

    return covering
