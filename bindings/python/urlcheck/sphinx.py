"""An extension of Sphinx: a warning for each link of a document that isn't a valid URL string.

``extensions = ["urlcheck.sphinx"]`` in conf.py. Each warning has the type ``urlcheck`` and the rule as its subtype, so
that ``suppress_warnings = ["urlcheck.percent"]`` silences the warnings of a rule.
"""

import importlib
import os
import re
from typing import Any, Dict, Iterator, List, NamedTuple, Optional, Sequence, Tuple

from . import Profile, version
from ._documents.configuration import Configuration, Misconfigured, Project
from ._readers import markdown_links, rst_links
from ._readers.comments import covered
from ._readers.literals import Literals
from ._readers.source import Comment, Link, Source
from ._reports.checker import Checker
from ._reports.ignoring import Ignoring
from ._reports.rules import ALL
from ._streams import shown

_LOG: Any = importlib.import_module("sphinx.util.logging").getLogger(__name__)

_BEFORE_COLLECTORS = 100
"""When the links are checked: before the collectors, which make an image's URI a path."""


class _Said(NamedTuple):
    """A link of a document, or HTML that it has, and where its block is."""

    path: str
    line: int
    text: str
    markup: Optional[str] = ""
    """How it is written, if docutils says that; none for HTML."""


class _Found(NamedTuple):
    """A link of a document."""

    said: _Said
    source: Optional[Source]
    """The text in which it is, if that is known."""
    link: Link


class _Settings(NamedTuple):
    """What links are checked by."""

    counts: Configuration
    checker: Checker
    has_columns: bool


def setup(app: Any) -> Dict[str, Any]:
    """What Sphinx calls."""
    app.add_config_value("urlcheck_profile", None, "env", [str])
    app.add_config_value("urlcheck_base", None, "env", [str])
    app.add_config_value("urlcheck_ignore", [], "env", [list])
    app.add_config_value("urlcheck_no_empty", None, "env", [bool])
    app.add_config_value("urlcheck_columns", False, "", [bool])
    app.add_config_value(_COUNTS, "", "env", [str])
    app.connect("config-inited", _configure)
    app.connect("doctree-read", _check_document, priority=_BEFORE_COLLECTORS)
    return {"version": version(), "parallel_read_safe": True, "parallel_write_safe": True}


_COUNTS = "urlcheck_counts"
"""A value of the configuration that no conf.py has: what links are checked by. Sphinx reads all documents again if it has
changed since the last build, as by a project's file."""


def _configure(app: Any, config: Any) -> None:
    """Notes what links of this build are checked by. Raises Sphinx's ``ConfigError``."""
    counts = _counts(app)
    patterns, rules = [it.pattern for it in counts.ignored], sorted(counts.selected)
    by = counts.profile, counts.base, patterns, counts.gfm, counts.is_empty_taken, rules
    setattr(config, _COUNTS, repr(by))
    is_gfm = counts.gfm or "linkify" in (getattr(config, "myst_enable_extensions", None) or ())
    app.urlcheck_settings = _Settings(counts._replace(gfm=is_gfm), Checker(counts, False), config.urlcheck_columns)


def _counts(app: Any) -> Configuration:
    """What links are checked by: what conf.py says, otherwise the project's configuration. Raises Sphinx's
    ``ConfigError``."""
    failed: Any = importlib.import_module("sphinx.errors").ConfigError
    config = app.config
    try:
        project = Project().configuration_of(os.path.abspath(app.srcdir))
        name = config.urlcheck_profile
        if name is not None and name not in [it.name.lower() for it in Profile]:
            raise failed("urlcheck_profile is one of {}".format(", ".join(it.name.lower() for it in Profile)))
        given = Configuration(
            file="urlcheck_base",
            profile=None if name is None else Profile[name.upper()],
            base=config.urlcheck_base or None,
            ignored=tuple(re.compile(it) for it in config.urlcheck_ignore),
            is_empty_taken=config.urlcheck_no_empty,
        )
        return given.over(project)
    except re.error as error:
        raise failed("urlcheck_ignore: not a regular expression: {}".format(error)) from None
    except Misconfigured as misconfigured:
        raise failed(str(misconfigured)) from None


def _is_markdown(app: Any, path: str) -> bool:
    """Whether Sphinx reads a document by a parser of Markdown, whatever the end of its name is."""
    kinds = [kind for end, kind in app.config.source_suffix.items() if path.endswith(end)]
    parser = app.registry.get_source_parsers().get(kinds[0]) if kinds else None
    return "markdown" in getattr(parser, "supported", ())


def _check_document(app: Any, tree: Any) -> None:
    """Checks the links that the author of a document wrote, before Sphinx adds its own."""
    settings, literals = app.urlcheck_settings, Literals()
    path = os.path.abspath(app.env.doc2path(app.env.docname))
    written = literals.source(path)
    found: List[_Found] = []
    comments: Sequence[Comment] = ()
    if written is not None and _is_markdown(app, path):
        # (MyST percent-encodes what it reads, so that its nodes don't say what was written)
        whole = markdown_links.links_of(written, bool(settings.counts.gfm))
        comments = whole.comments
        found = [_Found(_Said(path, written.position(it.offset)[0], it.text), written, it) for it in whole.links]
    elif written is not None:
        own = [it for it in tree.findall(rst_links.nodes().comment) if _place(it, path)[0] == path]
        comments = rst_links.comments_in(written, own)
    read = {(it.link.text, it.said.line) for it in found}
    for said in _said(tree, path):
        source = literals.source(said.path)
        for link, is_there in _links_of(settings, literals, said):
            told = said._replace(text=link.text)
            if source is None or not is_there:
                found.append(_Found(told, None, link))
            elif said.path != path or (link.text, source.position(link.offset)[0]) not in read:
                found.append(_Found(told, source, link))
    _tell_all(settings, found, comments, _Found(_Said(path, 1, ""), written, Link("", 0, False)))


def _tell_all(settings: _Settings, found: List[_Found], comments: Sequence[Comment], document: _Found) -> None:
    """Warns of the links of a document that are wrong, but for those that its comments leave out, and of comments."""
    source = document.source
    ignoring = Ignoring(comments, settings.counts.ignored)
    own = [it for it in found if it.source is source]
    if source is not None:
        links = covered(source, [it.link for it in own], comments)
        others = [it for it in found if it.source is not source]
        found = others + [it._replace(link=link) for it, link in zip(own, links)]
    for it in found:
        _tell(settings, it, ignoring)
    for remark in ignoring.remarks(settings.counts.selected == ALL):
        line = source.position(remark.offset)[0] if source is not None else 1
        location = "{}:{}".format(document.said.path, line)
        _LOG.warning("%s [comment]", remark.message, location=location, type="urlcheck", subtype="comment")


def _links_of(settings: _Settings, literals: Literals, said: _Said) -> Iterator[Tuple[Link, bool]]:
    """The links of a node that may be refused, and whether it is known where each is."""
    if said.markup is None:
        yield from rst_links.links_of_raw(literals, said.path, said.line, said.text)
    elif _is_sought(settings, said):
        yield from rst_links.found_once(literals, said.path, said.line, said.text, said.markup)


def _is_sought(settings: _Settings, said: _Said) -> bool:
    """Whether a link may be refused: as it was read, or as it is written, with spaces that docutils takes away."""
    is_written = not said.markup or said.text in said.markup
    return not is_written or settings.checker.wrong(Link(said.text, 0, False)) is not None


def _said(tree: Any, path: str) -> Iterator[_Said]:
    """The links and the HTML of a document's nodes."""
    addnodes: Any = importlib.import_module("sphinx.addnodes")
    for node in tree.findall():
        if isinstance(node, addnodes.toctree):
            yield from (_Said(*_place(node, path), to) for _, to in node["entries"] if "://" in to)
        elif isinstance(node, rst_links.nodes().raw) and "html" in node.get("format", "").split():
            # (it may be in another file, which the document names)
            named = node.get("source", "")
            where = (os.path.abspath(named), 1) if os.path.exists(named) else _place(node, path)
            yield _Said(*where, node.astext(), None)
        elif isinstance(node, addnodes.download_reference):
            if "://" in node.get("reftarget", ""):
                yield _Said(*_place(node, path), node["reftarget"], node.rawsource)
        elif rst_links.is_link(node) and not node.get("internal"):
            yield _Said(*_place(node, path), rst_links.link_of(node), rst_links.markup_of(node))


def _place(node: Any, path: str) -> Tuple[str, int]:
    """The file and the line of a node, or of what is around it: the line of an inline node is unknown to docutils."""
    source: Optional[str] = None
    line: Optional[int] = None
    while node is not None and (source is None or line is None):
        source = source or node.source
        line = line or node.line
        node = node.parent
    # (autodoc counts from the docstring, whose line it doesn't say)
    file, is_docstring, _ = (source or "").partition(":docstring of ")
    if is_docstring and os.path.exists(file):
        return os.path.abspath(file), 1
    return (os.path.abspath(source) if source and os.path.exists(source) else path), line or 1


def _tell(settings: _Settings, found: _Found, ignoring: Ignoring) -> None:
    """Warns about a link, if it is wrong and isn't meant like that."""
    said, source, link = found
    wrong, is_left_out = ignoring.wrong(settings.checker, link)
    if wrong is None or is_left_out:
        return
    where: List[Any] = [said.path, said.line]
    column = ""
    if source is not None:
        where[1], at = source.position(link.place(wrong.place))
        column = "" if settings.has_columns else ", column {}".format(at)
        where += [at] if settings.has_columns else []
    kind = {"location": ":".join(map(str, where)), "type": "urlcheck", "subtype": wrong.rule}
    _LOG.warning("%s: %s%s [%s]", shown(said.text), wrong.message, column, wrong.rule, **kind)
