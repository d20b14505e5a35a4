"""The links of a reStructuredText document, by the package ``docutils``: roles and directives that it doesn't
know, such as Sphinx's, are read through."""

import contextlib
import functools
import importlib
import re
from typing import Any, Dict, Iterable, Iterator, List, Set, Tuple

from .comments import comments_of
from .html_links import links_of as links_of_html
from .literals import Literals
from .source import SPACES, Comment, Contents, Link, Lost, Source

PASSED_OVER = (
    "roles and directives that docutils doesn't know are read only for their text; the extension urlcheck.sphinx "
    "reads Sphinx's own"
)
"""What is said if there was an unknown role or directive."""

_SETTINGS = {
    "report_level": 5,
    "halt_level": 5,
    "warning_stream": False,
    "file_insertion_enabled": False,
    "raw_enabled": True,
    "_disable_config": True,
    "input_encoding": "unicode",
    "line_length_limit": 1 << 20,
}
"""Nothing but the document is read, and docutils reports nothing."""

_LONG = re.compile(r"[^\n]{%d,}" % ((1 << 20) + 1))
"""A line for which docutils would read nothing of a document."""

_MOST_SAID = 60
"""How many code points are shown of what docutils says."""

_DROPS = 3
"""From which level on a message of docutils may be about a block that it doesn't read."""

_TARGET = re.compile("<([A-Za-z][A-Za-z0-9+.-]*:/[^<>]*)>$")
"""What says where an unknown role leads, if that is a URL."""

_CODE = frozenset(
    "code-block sourcecode literalinclude highlight graphviz digraph graph productionlist doctest testcode testsetup "
    "testoutput mermaid plantuml uml toctree ipython prompt command-output program-output".split()
)
"""The directives that docutils doesn't know whose content isn't reStructuredText."""


def links_of(source: Source) -> Contents:
    """What is in a document. Raises ``ImportError`` if ``docutils`` isn't installed."""
    core: Any = importlib.import_module("docutils.core")
    found = Contents(source)
    with _read_through(found.notes):
        text = _LONG.sub("", source.text)
        tree = core.publish_doctree(text, "<text>", settings_overrides=_SETTINGS)
    literals = Literals()
    literals.put("", source)
    for node in tree.findall():
        links: Iterable[Tuple[Link, bool]] = ()
        if isinstance(node, nodes().raw) and "html" in node.get("format", "").split():
            links = links_of_raw(literals, "", _line(node), node.astext())
        elif is_link(node):
            links = found_once(literals, "", _line(node), link_of(node), markup_of(node))
        # (what isn't written, as what :rfc: makes, isn't the author's)
        found.links += [link for link, is_there in links if is_there]
    found.links.sort(key=lambda link: link.offset)
    found.comments = comments_in(source, tree.findall(nodes().comment))
    found.lost = [Lost(it.start(), "a line of more than a MiB") for it in _LONG.finditer(source.text)]
    found.lost = sorted([*found.lost, *_dropped(source, tree.findall(nodes().system_message))])
    return found


@functools.lru_cache(None)
def nodes() -> Any:
    """The module with docutils's nodes."""
    return importlib.import_module("docutils.nodes")


def _dropped(source: Source, messages: Iterable[Any]) -> Iterator[Lost]:
    """The blocks that docutils couldn't read, by its messages. One of code has no links."""
    for message in messages:
        blocks = [it.astext() for it in message.children if isinstance(it, nodes().literal_block)]
        directive = _DIRECTIVE.match(blocks[0]) if blocks else None
        is_code = directive is not None and directive[1] in (*_CODE, "code", "math")
        is_empty = directive is not None and not blocks[0][directive.end() :].strip()
        if blocks and message.get("level", 0) >= _DROPS and not (is_code or is_empty):
            line = min(message.get("line", 1), source.position(len(source.text))[0])
            said = " ".join(message.children[0].astext().split())
            yield Lost(source.offset(line, 0), said if len(said) <= _MOST_SAID else said[:_MOST_SAID] + "\u2026")


_DIRECTIVE = re.compile(r"\.\. (?:\|[^|\n]*\| )?([A-Za-z0-9_.+:-]+)::")
"""How a block that is a directive begins."""


def comments_in(source: Source, nodes: Iterable[Any]) -> List[Comment]:
    """The comments of a source that are for this program, by their nodes. docutils says a line of each, its first or
    its last."""
    comments: List[Comment] = []
    for node in nodes:
        text = node.astext()
        end = source.offset(min(_line(node), source.position(len(source.text))[0]), 0)
        end += len(source.line(_line(node)))
        start = source.text.rfind(text.partition("\n")[0], 0, end)
        comments += comments_of(text, start) if start >= 0 else ()
    return comments


def is_link(node: Any) -> bool:
    """Whether a node has a link that is written where the node is. One by a name is written where that is defined."""
    if isinstance(node, nodes().target):
        # (an embedded URL has its reference's place)
        return bool(node.get("refuri")) and not isinstance(node.parent, nodes().TextElement)
    if isinstance(node, nodes().reference):
        return bool(node.get("refuri")) and not node.resolved and node["refuri"] != "mailto:" + node.astext()
    return isinstance(node, nodes().image)


def link_of(node: Any) -> str:
    """The link of such a node. (docutils reads a line's end after a backslash as a space before it.)"""
    link: str = node["uri" if "uri" in node else "refuri"]
    return link.strip(SPACES)


_OPTION = re.compile(r"\n\s*:(?!:)")
"""What begins an option of a directive."""


def markup_of(node: Any) -> str:
    """The markup of such a node, in which its link is looked for, or nothing if docutils doesn't keep it. That of an
    image ends before its options; an image that is a link has no markup of its own but the option ``:target:``."""
    markup: str = node.rawsource
    if isinstance(node, nodes().image):
        return _OPTION.split(markup)[0]
    if not markup and isinstance(node, nodes().reference) and node.children and isinstance(node[0], nodes().image):
        option = ":target:" + node[0].rawsource.partition(":target:")[2]
        return _OPTION.split(option)[0]
    return markup


def links_of_raw(literals: Literals, path: str, line: int, text: str) -> Iterator[Tuple[Link, bool]]:
    """The links of HTML that a document has from a line on, and whether each is known to be there."""
    place_of = literals.block(path, line, text)
    for link in links_of_html(Source(text)).links:
        if place_of is not None:
            yield literals.moved(path, link, place_of), True
        else:
            yield from found_once(literals, path, line, link.text)


def found_once(literals: Literals, path: str, line: int, text: str, markup: str = "") -> Iterator[Tuple[Link, bool]]:
    """A link where it is written, and whether that is known; nothing if it was found there before."""
    found = literals.find(path, line, text, markup)
    if found is None:
        yield Link(text, 0, False), False
    # (a substitution is used several times, and written once)
    elif found[1]:
        yield found


def _line(node: Any) -> int:
    """The line of a node or of what is around it; docutils says none of an inline one."""
    while node is not None and node.line is None:
        node = node.parent
    if node is None:
        return 1
    line: int = node.line
    # (docutils says of a term the line before the last one of its definition)
    item = node.parent if node.tagname == "term" else node
    if item.tagname == "definition_list_item":
        line += 1 - item.rawsource.count("\n")
    return line


@contextlib.contextmanager
def _read_through(notes: Set[str]) -> Iterator[None]:
    """While it holds, an unknown role is its text, and of an unknown directive argument and content are read. What a
    document defines ends with it."""
    directives: Any = importlib.import_module("docutils.parsers.rst.directives")
    roles: Any = importlib.import_module("docutils.parsers.rst.roles")
    known_directive, known_role = directives.directive, roles.role
    defined: Dict[str, Any] = dict(roles._roles)
    through = _through()

    # (docutils has one table of each for all readers, so both lookups are replaced, and put back at the end)
    def directive(name: str, language: Any, document: Any) -> Any:
        found, said = known_directive(name, language, document)
        if found:
            return found, said
        notes.add(PASSED_OVER)
        return through, []

    def role(name: str, language: Any, line: int, reporter: Any) -> Any:
        found, said = known_role(name, language, line, reporter)
        if found:
            return found, said
        notes.add(PASSED_OVER)
        return _role, []

    directives.directive, roles.role = directive, role
    try:
        yield
    finally:
        directives.directive, roles.role = known_directive, known_role
        roles._roles.clear()
        roles._roles.update(defined)


def _role(name: str, raw: str, text: str, *_: Any, **__: Any) -> Any:
    """A role that isn't known: its text, or a link if the text says where it leads."""
    found = _TARGET.search(text)
    return [nodes().reference(raw, text, refuri=found[1]) if found else nodes().inline(raw, text)], []


def _through() -> Any:
    """A directive that isn't known: each option is taken, and argument and content are read, unless that is code."""
    rst: Any = importlib.import_module("docutils.parsers.rst")

    class Options(Dict[str, Any]):
        """Takes each option."""

        def __bool__(self) -> bool:
            return True

        def __getitem__(self, _: str) -> Any:
            return rst.directives.unchanged

    class Through(rst.Directive):  # type: ignore[misc]
        """Is read through."""

        optional_arguments = 1
        final_argument_whitespace = True
        has_content = True
        option_spec = Options()

        def run(self) -> List[Any]:
            """What it holds."""
            held = nodes().container()
            held.line = self.lineno
            if self.name not in _CODE:
                if self.arguments:
                    read, _ = self.state.inline_text(self.arguments[0], self.lineno)
                    held += nodes().paragraph("", "", *read)
                self.state.nested_parse(self.content, self.content_offset, held)
            return [held]

    return Through
