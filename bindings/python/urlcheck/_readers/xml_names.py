"""Which elements and attributes of XML have a URL, by the formats that say so: sitemaps, feeds, outlines, books,
documentation, packages."""

from typing import Dict, FrozenSet, Set, Tuple

from .source import Asks

Name = Tuple[str, str]
"""A namespace and a local name."""

ATOM = "http://www.w3.org/2005/Atom"
XHTML = "http://www.w3.org/1999/xhtml"
SVG = "http://www.w3.org/2000/svg"
RDF = "http://www.w3.org/1999/02/22-rdf-syntax-ns#"
MATHML = "http://www.w3.org/1998/Math/MathML"
XLINK = "http://www.w3.org/1999/xlink"
XML = "http://www.w3.org/XML/1998/namespace"
XINCLUDE = "http://www.w3.org/2001/XInclude"
RSS_1 = "http://purl.org/rss/1.0/"
CONTENT = "http://purl.org/rss/1.0/modules/content/"
ITUNES = "http://www.itunes.com/dtds/podcast-1.0.dtd"
MEDIA = "http://search.yahoo.com/mrss/"
PODCAST = "https://podcastindex.org/namespace/1.0"
PLAY = "http://www.google.com/schemas/play-podcasts/1.0"
DUBLIN_CORE = "http://purl.org/dc/elements/1.1/"
COMMENTS = "http://wellformedweb.org/CommentAPI/"
FEEDBURNER = "http://rssnamespace.org/feedburner/ext/1.0"
THREADS = "http://purl.org/syndication/thread/1.0"
TRACKBACK = "http://madskills.com/public/xml/rss/module/trackback/"
LICENCES = (
    "http://backend.userland.com/creativeCommonsRssModule",
    "http://cyber.law.harvard.edu/rss/creativeCommonsRssModule.html",
)
SITEMAP = "http://www.sitemaps.org/schemas/sitemap/0.9"
IMAGE = "http://www.google.com/schemas/sitemap-image/1.1"
VIDEO = "http://www.google.com/schemas/sitemap-video/1.1"
OPF = "http://www.idpf.org/2007/opf"
NCX = "http://www.daisy.org/z3986/2005/ncx/"
DOCBOOK_5 = "http://docbook.org/ns/docbook"
POM = "http://maven.apache.org/POM/4.0.0"

# What stands for no namespace, by what the outermost element says the document is.
RSS = ""
OPML = "opml"
PROSE = "prose"
"""DocBook up to 4 and DITA."""
APPSTREAM = "appstream"
CATALOG = "catalog"
"""AppStream whose images are relative to its ``media_baseurl``."""
NOWHERE = " "
"""Any other one, in which no name means anything."""

_PROSE_ROOTS = (
    *("article", "book", "chapter", "appendix", "preface", "part", "set", "section", "refentry", "glossary"),
    *("bibliography", "sect1", "sect2", "sect3", "sect4", "sect5", "dita", "topic", "concept", "task", "reference"),
    *("map", "bookmap", "glossentry", "glossgroup", "troubleshooting"),
)

_OBJECTS = ("imagedata", "videodata", "audiodata", "textdata", "graphic", "inlinegraphic")
"""The elements of DocBook that name a file."""

VOCABULARIES: Dict[str, str] = {
    "rss": RSS,
    "opml": OPML,
    **{name: PROSE for name in _PROSE_ROOTS},
    **{name: APPSTREAM for name in ("component", "components", "application", "applications")},
    "project": POM,
}
"""What names without a namespace mean, by the name of the outermost element."""

_ANY, _ABSOLUTE = Asks.REFERENCE, Asks.ABSOLUTE

TEXTS: Dict[Name, Asks] = {
    **{(RSS, name): _ABSOLUTE for name in ("link", "guid")},
    **{(RSS, name): _ANY for name in ("comments", "docs", "url")},
    (RSS_1, "link"): _ABSOLUTE,
    (RSS_1, "url"): _ANY,
    **{(ATOM, name): _ANY for name in ("icon", "logo", "uri")},
    (ATOM, "id"): _ABSOLUTE,
    (ITUNES, "new-feed-url"): _ABSOLUTE,
    **{(COMMENTS, name): _ANY for name in ("comment", "commentRss")},
    **{(FEEDBURNER, name): _ANY for name in ("origLink", "origEnclosureLink")},
    **{(MEDIA, name): _ANY for name in ("backLink", "response")},
    (TRACKBACK, "ping"): _ANY,
    **{(name, "license"): _ANY for name in LICENCES},
    (IMAGE, "license"): _ABSOLUTE,
    **{(VIDEO, name): _ANY for name in ("thumbnail_loc", "content_loc", "player_loc", "gallery_loc")},
    **{(OPML, name): _ANY for name in ("docs", "ownerId")},
    **{(APPSTREAM, name): _ABSOLUTE for name in ("url", "image", "video", "icon", "location")},
    **{(CATALOG, name): _ABSOLUTE for name in ("url", "location")},
    **{(CATALOG, name): _ANY for name in ("image", "video", "icon")},
    **{(POM, name): _ANY for name in ("url", "downloadUrl", "organizationUrl", "archive", "otherArchive", "picUrl")},
}
"""The elements whose text is a URL, with what it asks of it; and ``loc`` in any namespace, for sitemaps and their
extensions, which is absolute."""

HTML_TEXTS: Set[Name] = {
    *((RSS, name) for name in ("description",)),
    (RSS_1, "description"),
    (CONTENT, "encoded"),
    (ITUNES, "summary"),
}
"""The elements whose text is HTML."""

TYPED_TEXTS: Set[Name] = {
    *((ATOM, name) for name in ("content", "summary", "title", "subtitle", "rights")),
    *((MEDIA, name) for name in ("description", "text", "title")),
}
"""The elements whose text is HTML if their ``type`` is ``html``."""

ATTRIBUTES: Dict[Name, Set[str]] = {
    (RSS, "enclosure"): {"url"},
    (RSS, "source"): {"url"},
    (ITUNES, "image"): {"href"},
    (PLAY, "image"): {"href"},
    **{(MEDIA, name): {"url"} for name in ("content", "thumbnail", "player", "embed")},
    **{(MEDIA, name): {"href"} for name in ("license", "peerLink", "subTitle")},
    (MEDIA, "copyright"): {"url"},
    **{(PODCAST, name): {"url"} for name in ("transcript", "chapters", "funding", "trailer", "license")},
    (PODCAST, "person"): {"href", "img"},
    (PODCAST, "image"): {"href"},
    (PODCAST, "contentLink"): {"href"},
    (PODCAST, "remoteItem"): {"feedUrl"},
    (PODCAST, "socialInteract"): {"uri", "accountUrl"},
    (PODCAST, "source"): {"uri"},
    (PODCAST, "alternateEnclosure"): {"url"},
    (FEEDBURNER, "feedFlare"): {"href", "src"},
    (THREADS, "in-reply-to"): {"href", "source", "ref"},
    (ATOM, "link"): {"href"},
    (ATOM, "content"): {"src"},
    (ATOM, "generator"): {"uri"},
    (ATOM, "category"): {"scheme"},
    (VIDEO, "uploader"): {"info"},
    (OPML, "outline"): {"xmlUrl", "htmlUrl", "url"},
    **{(OPF, name): {"href"} for name in ("item", "reference", "link")},
    (NCX, "content"): {"src"},
    (PROSE, "ulink"): {"url"},
    (PROSE, "object"): {"data", "codebase"},
    **{(space, name): {"fileref"} for space in (PROSE, DOCBOOK_5) for name in _OBJECTS},
    **{(space, "issue"): {"url"} for space in (APPSTREAM, CATALOG)},
    (CATALOG, "components"): {"media_baseurl"},
    (XINCLUDE, "include"): {"href"},
}
"""The attributes of no namespace whose value is a URL, by their element."""

NAMING_ATTRIBUTES: Dict[Name, Set[str]] = {
    (RSS, "category"): {"domain"},
    **{(MEDIA, name): {"scheme"} for name in ("category", "rating")},
}
"""The attributes whose value names something, by a URL or by another word."""

NAMING_TEXTS: Set[Name] = {(DUBLIN_CORE, name) for name in ("identifier", "source")}
"""The elements whose text does."""

OF_ANY_ELEMENT: Dict[str, FrozenSet[str]] = {PROSE: frozenset(("href", "conref", "conrefend", "copy-to"))}
"""The attributes of any element of a namespace whose value is a URL."""

QUALIFIED = {(XLINK, "href"), (RDF, "about"), (RDF, "resource")}
"""The attributes of any element whose value is a URL."""

OF_PAGES = {XHTML, SVG, MATHML}
"""The namespaces of the elements that a page may have, whose links are relative to the ``base`` of XHTML."""

KNOWN: Set[str] = {
    *(RSS, OPML, PROSE, APPSTREAM, CATALOG, POM),
    *(namespace for namespace, _ in (*TEXTS, *ATTRIBUTES, *HTML_TEXTS, *TYPED_TEXTS)),
    *(*OF_PAGES, XLINK, RDF, SITEMAP, DOCBOOK_5),
}
"""The namespaces whose names are known."""

LIKE_LINKS = frozenset(("href", "url", "src"))
"""The attributes that are likely links, in a document in which no name is known."""

LIKE_TEXTS = frozenset(("url", "link"))
"""The elements that are likely links there."""
