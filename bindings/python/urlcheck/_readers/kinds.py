"""The kinds of documents: by which names' ends they are known, and what reads them."""

import importlib.util
import os
from typing import Dict, FrozenSet, List, NamedTuple, Optional, Tuple

KINDS: Dict[str, Tuple[str, ...]] = {
    "html": ("html", "htm"),
    "xml": (
        *("xhtml", "xht", "xml", "rss", "atom", "rdf", "svg", "opml", "opf", "ncx"),
        *("dita", "ditamap", "docbook", "dbk", "pom"),
    ),
    "markdown": ("md", "markdown", "mkd", "mkdn", "mdown", "mdwn", "qmd", "rmd"),
    "mdx": ("mdx",),
    "rst": ("rst", "rest"),
    "notebook": ("ipynb",),
    "epub": ("epub",),
    "css": ("css",),
    "json-feed": ("jsonfeed",),
}
"""The kinds, each with how the names of its documents end."""

_LIKE_HTML = (
    *("php", "phtml", "asp", "aspx", "jsp", "erb", "ejs", "hbs", "mustache", "liquid", "njk", "j2", "jinja", "jinja2"),
    *("twig", "tmpl", "shtml", "vue", "svelte"),
)
"""How the names of templates of pages end, which are read only if they are to be."""

NAMES = {"feed.json": "json-feed"}
"""The kinds by whole names, for names whose endings don't say the kind."""

ARCHIVES = ("epub",)
"""The kinds whose documents hold others."""

_BY_END = {end: kind for kind, ends in KINDS.items() for end in ends}

ENDS = tuple(_BY_END)
"""How the names of documents end."""

LISTS: FrozenSet[str] = frozenset(("txt", "csv", "tsv", "json", "links"))
"""How the name of a list of links ends."""


class Package(NamedTuple):
    """What reads a kind of document, if that isn't part of Python."""

    kind: str
    """What the kind is called."""
    module: str
    name: str
    """By which name pip has it."""
    debian: str

    def said(self) -> str:
        """How to have it."""
        return "the package {0}: pip install {0}, or Debian's {1}".format(self.name, self.debian)

    def is_there(self) -> bool:
        """Whether it is installed."""
        return importlib.util.find_spec(self.module) is not None


PACKAGES: Dict[str, Package] = {
    "markdown": Package("Markdown", "markdown_it", "markdown-it-py", "python3-markdown-it"),
    "mdx": Package("MDX", "markdown_it", "markdown-it-py", "python3-markdown-it"),
    "notebook": Package("a notebook", "markdown_it", "markdown-it-py", "python3-markdown-it"),
    "rst": Package("reStructuredText", "docutils", "docutils", "python3-docutils"),
    "css": Package("CSS", "tinycss2", "tinycss2", "python3-tinycss2"),
}
"""The packages that read some kinds."""


def kind_of(name: str) -> Optional[str]:
    """The kind of a document of that name, if its name says so."""
    return NAMES.get(os.path.basename(name).lower()) or _BY_END.get(end_of(name))


def is_like_html(name: str) -> bool:
    """Whether a name's ending says that it is a template of a page of HTML."""
    return end_of(name) in _LIKE_HTML


def is_list(name: str) -> bool:
    """Whether a name's ending says that it may be a list of links."""
    return end_of(name) in LISTS


def end_of(name: str) -> str:
    """What comes after the last full stop of a file's name, in lower case, or all of it if there is none."""
    return os.path.basename(name).rpartition(".")[2].lower()


def listed(kinds: List[str]) -> str:
    """Names as a sentence has them."""
    return "{} or {}".format(", ".join(kinds[:-1]), kinds[-1])
