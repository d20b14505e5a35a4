"""A plugin of MkDocs: a warning for each link of a page that isn't a valid URL string, which ends a strict build.

``plugins: [search, urlcheck]`` in mkdocs.yml. It reads CommonMark; the HTML of a page is read too, since
Python-Markdown takes links that CommonMark doesn't.
"""

import importlib
import logging
import os
import re
from typing import Any, List, Optional, Set

from . import Profile
from ._documents.configuration import Configuration, Misconfigured, Project
from ._readers import html_links, markdown_links
from ._readers.comments import covered
from ._readers.front_matter import front_matter_of
from ._readers.literals import Literals
from ._readers.source import Asks, Link, Source
from ._reports.checker import Checker
from ._reports.ignoring import Ignoring
from ._reports.rules import ALL
from ._streams import shown

_OPTIONS: Any = importlib.import_module("mkdocs.config.config_options")
_PLUGINS: Any = importlib.import_module("mkdocs.plugins")

# (a strict build counts the warnings below this name)
_LOG = logging.getLogger("mkdocs.plugins.urlcheck")

_ABOVE = re.compile(r"\A(?:\.\.?/)+")
"""What MkDocs writes before a link of a page in a folder of its own."""


class Plugin(_PLUGINS.BasePlugin):  # type: ignore[misc]
    """What MkDocs calls."""

    config_scheme = (
        ("profile", _OPTIONS.Choice([it.name.lower() for it in Profile], default=None)),
        ("base", _OPTIONS.Type(str, default=None)),
        ("ignore", _OPTIONS.Type(list, default=[])),
        ("gfm", _OPTIONS.Type(bool, default=None)),
        ("no_empty", _OPTIONS.Type(bool, default=None)),
        ("rendered", _OPTIONS.Type(bool, default=True)),
    )

    def on_config(self, config: Any, **_: Any) -> Any:
        """Takes the settings. Raises MkDocs's ``PluginError`` if one is wrong."""
        failed: Any = importlib.import_module("mkdocs.exceptions").PluginError
        try:
            folder = os.path.dirname(os.path.abspath(config["config_file_path"] or "mkdocs.yml"))
            # (each build reads it again, also one of a server that goes on)
            project = Project().configuration_of(folder)
            self._configured_by = project.file
            name = self.config["profile"]
            given = Configuration(
                profile=Profile[name.upper()] if name else None,
                base=self.config["base"] or None,
                ignored=tuple(re.compile(it) for it in self.config["ignore"]),
                gfm=self.config["gfm"],
                is_empty_taken=self.config["no_empty"],
            )
            if given.base is None and project.base is None:
                given = given._replace(base=config["site_url"] or None)
            self._counts = given.over(project)
            self._checker = Checker(self._counts, False)
        except re.error as error:
            raise failed("urlcheck: ignore has no regular expression: {}".format(error)) from None
        except Misconfigured as misconfigured:
            raise failed("urlcheck: {}".format(misconfigured)) from None
        return config

    def on_serve(self, server: Any, **_: Any) -> Any:
        """Has a server build again when the project's configuration is saved."""
        if self._configured_by:
            server.watch(self._configured_by)
        return server

    def on_page_markdown(self, markdown: str, page: Any, config: Any, files: Any, **_: Any) -> Optional[str]:
        """Checks what the author wrote: the page's file as it is, if no other plugin changed its text."""
        self._literals = Literals()
        self._seen: Set[str] = set()
        self._path = str(page.file.abs_src_path or "")
        source = self._literals.source(self._path) if self._path else None
        lines = "\n".join(markdown.splitlines())
        is_written = source is not None and "\n".join(source.text.splitlines()).endswith(lines)
        text = source if source is not None and is_written else Source(markdown)
        front = front_matter_of(text.text)
        self._first = text.position(front[0])[0] if front and is_written else 1
        found = markdown_links.links_of(text, bool(self._counts.gfm))
        self._written = text if is_written else None
        self._comments, self._ignoring = found.comments, Ignoring(found.comments, self._counts.ignored)
        self._texts: List[Link] = []
        for link in covered(text, found.links, found.comments):
            if link.asks is Asks.ANOTHER and self.config["rendered"]:
                self._texts.append(link)
                continue
            # (the page's HTML doesn't have what is before its text)
            if not front or link.offset >= front[0]:
                self._seen.add(_ABOVE.sub("", link.text))
            self._tell(page.file.src_path, link, self._written)
        return None

    def on_page_content(self, html: str, page: Any, config: Any, files: Any, **_: Any) -> Optional[str]:
        """Checks what Python-Markdown made of it, for links that CommonMark doesn't have; then nothing more is asked of
        the comments."""
        if self.config["rendered"]:
            for link in html_links.links_of(Source(html)).links:
                text = _ABOVE.sub("", link.text)
                if text not in self._seen:
                    self._seen.add(text)
                    self._tell_made(page.file.src_path, link)
        # (Python-Markdown takes some for links that are text in CommonMark)
        for link in self._texts:
            if link.text not in self._seen:
                self._tell(page.file.src_path, link, self._written)
        for remark in self._ignoring.remarks(self._counts.selected == ALL):
            where = ":{}:{}".format(*self._written.position(remark.offset)) if self._written is not None else ""
            _LOG.warning("%s%s: %s [comment]", page.file.src_path, where, remark.message)
        return None

    def _tell_made(self, name: str, link: Link) -> None:
        """Warns about a link in the page's HTML, if it is wrong, at the place where its text is in the page's file."""
        source = self._literals.source(self._path) if self._path else None
        texts = (link.text, _ABOVE.sub("", link.text)) if self._checker.wrong(link) is not None else ()
        found = next(filter(None, (self._literals.find(self._path, self._first, it) for it in texts)), None)
        if source is None or found is None:
            self._tell(name, link, None)
        elif source is self._written:
            self._tell(name, covered(source, [found[0]], self._comments)[0], source)
        else:
            self._tell(name, found[0], source)

    def _tell(self, name: str, link: Link, source: Optional[Source]) -> None:
        """Warns about a link, if it is wrong and isn't meant like that, at its place in this source, if that is
        known."""
        wrong, is_left_out = self._ignoring.wrong(self._checker, link)
        if wrong is None or is_left_out:
            return
        where = "" if source is None else ":{}:{}".format(*source.position(link.place(wrong.place)))
        _LOG.warning("%s%s: %s: %s [%s]", name, where, shown(link.text), wrong.message, wrong.rule)
