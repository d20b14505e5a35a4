"""What parsers of others make of a document: a list of its parts in order, each a kind and a value. Two documents
have the same tree if only values differ. Markdown is read by cmark, or by markdown-it-py where that isn't installed."""

import html.parser
import re
import shutil
import subprocess
import xml.etree.ElementTree as ElementTree
import xml.parsers.expat
from typing import Any, Callable, Dict, Iterator, List, Tuple

Part = Tuple[str, str]
"""The kind of a part, and its value."""

CMARK = shutil.which("cmark")


class _Html(html.parser.HTMLParser):
    """The parts of HTML by Python's own parser, as it meets them."""

    def __init__(self) -> None:
        super().__init__(convert_charrefs=False)
        self.parts: List[Part] = []

    def handle_starttag(self, tag: str, attrs: List[Any]) -> None:
        self.parts.append(("tag", tag))
        self.parts += [("attribute " + name, value or "") for name, value in attrs]

    def handle_endtag(self, tag: str) -> None:
        self.parts.append(("end", tag))

    def handle_data(self, data: str) -> None:
        self.parts.append(("text", data))

    def handle_entityref(self, name: str) -> None:
        self.parts.append(("reference", name))

    def handle_charref(self, name: str) -> None:
        self.parts.append(("reference", name))

    def handle_comment(self, data: str) -> None:
        self.parts.append(("comment", data))

    def handle_decl(self, decl: str) -> None:
        self.parts.append(("declaration", decl))

    def handle_pi(self, data: str) -> None:
        self.parts.append(("instruction", data))

    def unknown_decl(self, data: str) -> None:
        self.parts.append(("unknown", data))


def of_html(text: str) -> List[Part]:
    """The parts by ``html.parser``."""
    parser = _Html()
    parser.feed(text)
    parser.close()
    return parser.parts


def of_html5(text: str) -> List[Part]:
    """The elements by html5lib, as the HTML Standard has them."""
    import html5lib

    return list(_elements(html5lib.parse(text, namespaceHTMLElements=False)))


def of_lxml(text: str) -> List[Part]:
    """The elements by libxml2's parser of HTML."""
    import lxml.html

    return list(_elements(lxml.html.document_fromstring(text.encode(), parser=lxml.html.HTMLParser(encoding="utf-8"))))


def _elements(root: Any) -> Iterator[Part]:
    """The parts of a tree of elements."""
    for it in root.iter():
        yield "element", it.tag if isinstance(it.tag, str) else "comment"
        yield from (("attribute {}".format(name), value) for name, value in it.items())
        yield "text", it.text or ""
        yield "after", it.tail or ""


def of_xml(text: str) -> List[Part]:
    """The parts by expat. Raises ``ExpatError``."""
    parts: List[Part] = []
    parser = xml.parsers.expat.ParserCreate()
    parser.buffer_text = True
    parser.ordered_attributes = True

    def began(name: str, given: List[str]) -> None:
        parts.append(("element", name))
        parts.extend(("attribute " + key, value) for key, value in zip(given[::2], given[1::2]))

    parser.StartElementHandler = began
    parser.EndElementHandler = lambda name: parts.append(("end", name))
    parser.CharacterDataHandler = lambda data: parts.append(("text", data))
    parser.ProcessingInstructionHandler = lambda target, data: parts.append(("instruction " + target, data))
    parser.CommentHandler = lambda data: parts.append(("comment", data))
    parser.Parse(text, True)
    return parts


def of_css(text: str) -> List[Part]:
    """The tokens by tinycss2, nested ones too."""
    import tinycss2

    return list(_tokens(tinycss2.parse_component_value_list(text)))


def _tokens(values: Any) -> Iterator[Part]:
    """The tokens of these, in order."""
    for it in values:
        inner = getattr(it, "content", None) or getattr(it, "arguments", None)
        yield it.type, str(getattr(it, "name", "")) if inner is not None else it.serialize()
        yield from _tokens(inner or ())


FRONT = re.compile(r"\A(---|\+\+\+)[ \t]*\n(.*?\n)(?:---|\+\+\+|\.\.\.)[ \t]*(?:\n|\Z)", re.DOTALL)
"""Front matter, as programs that make sites have it."""


def of_markdown(text: str) -> List[Part]:
    """The parts of front matter by yaml or tomllib, and of what is after it by cmark."""
    found = FRONT.match(text)
    return (_front(found[1], found[2]) if found else []) + _inner(text[found.end() :] if found else text)


def _front(mark: str, text: str) -> List[Part]:
    """The values of front matter, in order."""
    if mark == "+++":
        import tomllib

        return list(_values(tomllib.loads(text)))
    import yaml

    try:
        return list(_values(yaml.load(text, Loader=yaml.BaseLoader)))
    except yaml.YAMLError:
        return [("no yaml", text)]


def _values(value: Any, path: str = "") -> Iterator[Part]:
    """The values in one, each with the keys that lead to it. (A key is a part too, so that one that changes is seen.)"""
    if isinstance(value, dict):
        for key, it in value.items():
            yield "key " + path, str(key)
            yield from _values(it, "{}.{}".format(path, key))
    elif isinstance(value, list):
        for it in value:
            yield from _values(it, path + "[]")
    else:
        yield "value " + path, str(value)


def _inner(text: str) -> List[Part]:
    """The parts of CommonMark."""
    if CMARK is None:
        import markdown_it

        return [part for token in markdown_it.MarkdownIt("commonmark").parse(text) for part in _of_token(token)]
    ran = subprocess.run([CMARK, "--to", "xml", "--unsafe"], input=text.encode(), stdout=subprocess.PIPE, check=True)
    # (controls of the text stay in what cmark writes, which no XML has)
    written = re.sub(
        "[\x00-\x08\x0b\x0c\x0e-\x1f]",
        "\ufffd",
        ran.stdout.decode().replace('<!DOCTYPE document SYSTEM "CommonMark.dtd">', ""),
    )
    return list(_elements(ElementTree.fromstring(written)))


def _of_token(token: Any) -> Iterator[Part]:
    """The parts of a token of markdown-it-py."""
    yield token.type, token.content if token.children is None else ""
    yield from (("attribute " + name, str(value)) for name, value in (token.attrs or {}).items())
    for it in token.children or ():
        yield from _of_token(it)


QUIET = {
    "report_level": 5,
    "halt_level": 5,
    "warning_stream": False,
    "file_insertion_enabled": False,
    "raw_enabled": True,
    "input_encoding": "unicode",
    "_disable_config": True,
}


def of_rst(text: str) -> List[Part]:
    """The nodes by docutils. (What it complains of is left out, since that names places.)"""
    import docutils.core
    from docutils import nodes

    parts: List[Part] = []
    for it in docutils.core.publish_doctree(text, settings_overrides=QUIET).findall():
        if isinstance(it, nodes.Text):
            parts.append(("text", str(it)))
        elif isinstance(it, nodes.Element) and not isinstance(it, (nodes.system_message, nodes.problematic)):
            parts.append(("node", it.tagname))
            parts += [
                ("attribute " + key, str(value))
                for key, value in sorted(it.attributes.items())
                if key not in ("backrefs", "source")
            ]
    return parts


PARSERS: Dict[str, Tuple[Tuple[str, str, Callable[[str], List[Part]]], ...]] = {
    "html": (("html.parser", "html.parser", of_html), ("lxml", "lxml", of_lxml), ("html5lib", "html5lib", of_html5)),
    "xml": (("expat", "xml.parsers.expat", of_xml),),
    "css": (("tinycss2", "tinycss2", of_css),),
    "md": (("cmark" if CMARK else "markdown-it-py", "sys" if CMARK else "markdown_it", of_markdown),),
    "rst": (("docutils", "docutils", of_rst),),
}
"""The parsers of each kind: their names, their modules, and what gives the parts."""
