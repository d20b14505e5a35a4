"""The forms of links in which faults are planted: each is a text with ``@`` in place of the link, its file's ending,
and the code points that a link there can't have."""

from typing import Dict, NamedTuple, Tuple


class Form(NamedTuple):
    """A form of links."""

    end: str
    text: str
    not_in: str = ""
    """What would end the link, or make another one of it."""
    has_scheme: bool = False
    """Whether a link there has to have a scheme."""
    before: str = ""
    """What the document begins with."""
    after: str = ""
    """What it ends with."""


def of_html(names: str, not_in: str = '"') -> Dict[str, Form]:
    """The forms of tags of HTML."""
    return {
        "HTML {}".format(text): Form("html", "<p>\u00e9\U0001f600 " + text, not_in)
        for text in names.strip().split("\n")
    }


SEES = "See \u00e9\U0001f600 "
XML = '<?xml version="1.0"?>\n'
ATOM = '<feed xmlns="http://www.w3.org/2005/Atom"><entry>'
SVG = '<svg xmlns="http://www.w3.org/2000/svg" xmlns:xlink="http://www.w3.org/1999/xlink">\n'
NOTEBOOK = '{"cells": [\n {"cell_type": "markdown", "metadata": {}, "source": ["# T\\n", "'

FORMS: Dict[str, Form] = {
    **of_html(
        """
<a href="@">x</a>
<a href='@'>x</a>
<map><area href="@"></map>
<link rel="next" href="@">
<img alt="" src="@">
<script src="@"></script>
<iframe src="@"></iframe>
<embed src="@">
<video src="@"></video>
<audio src="@"></audio>
<video poster="@"></video>
<video><source src="@"></video>
<video><track src="@"></video>
<input type="image" src="@">
<object data="@"></object>
<form action="@"></form>
<button formaction="@">x</button>
<input type="submit" formaction="@">
<blockquote cite="@">x</blockquote>
<q cite="@">x</q>
<del cite="@">x</del>
<ins cite="@">x</ins>
<div itemscope itemtype="http://h/" itemid="@">x</div>
<svg><image xlink:href="@"/></svg>
<svg><use href="@"/></svg>
<A HREF = "@" TITLE="\u00e9">x</A>
"""
    ),
    **of_html("<a href=@ id=x>x</a>", "\"' >"),
    **of_html(
        "<a ping=\"@\" href='x'>x</a>\n<div itemscope itemtype=\"@\">x</div>\n<a ping='http://h/ @' href='x'>x</a>",
        '" ',
    ),
    **of_html(
        '<img src="x" srcset="@">\n<img src="x" srcset="@ 1x, b.png 2x">\n<picture><source srcset="b.png 100w, @ 200w"></picture>\n'
        '<link rel="preload" as="image" imagesrcset="b.png, @ 2x">',
        '" ,',
    ),
    **of_html('<a style="background: url(\'@\')">x</a>\n<a style="color: red; background: url(@)">x</a>', "\"'() "),
    "HTML refresh": Form("html", '<meta http-equiv="refresh" content="5; url=@">', '"'),
    "HTML refresh in quotes": Form("html", "<meta content=\"0;URL='@'\" http-equiv=Refresh>", "\"'"),
    "HTML manifest": Form("html", '<html lang="en" manifest="@">', '"'),
    "HTML style": Form("html", '<style>\n/* \u00e9 */ a { background: url("@") }</style>', '"\\'),
    "HTML import": Form("html", "<style>@import '@';</style>".replace("@i", "\x00i"), "'\\"),
    "Markdown link": Form("md", SEES + "[x](@) y", " ()|"),
    "Markdown link in angle brackets": Form("md", SEES + "[x](<@>) y", "|"),
    "Markdown link with a title": Form("md", SEES + "[x](@ 'a title') y", " ()|"),
    "Markdown image": Form("md", SEES + "![x](@) y", " ()|"),
    "Markdown badge": Form("md", SEES + "[![x](@)](http://h/) y", " ()|"),
    "Markdown link around a badge": Form("md", SEES + "[![x](b.png)](@) y", " ()|"),
    "Markdown definition": Form("md", "[x]: @\n\nSee [x].", " |"),
    "Markdown definition in angle brackets": Form("md", "[x]: <@> 'a title'\n\nSee [x].", "|"),
    "Markdown autolink": Form("md", SEES + "<@> y", " |", True),
    "Markdown list": Form("md", "1. one\n   - " + SEES + "[x](@)", " ()|"),
    "Markdown quotation": Form("md", "> one\n> " + SEES + "[x](@)", " ()|"),
    "Markdown heading": Form("md", "## " + SEES + "[x](@)", " ()|"),
    "Markdown table": Form("md", "| a | b |\n|---|---|\n| \u00e9 | [x](@) |", " ()|"),
    "Markdown HTML": Form("md", '<div>\n<a href="@">x</a>\n</div>', '"'),
    "Markdown HTML in a line": Form("md", SEES + '<img src="@"> y', '"'),
    "YAML before Markdown": Form("md", 'url: "@"', '"\\', True, "---\ntitle: \u00e9\n", "\n---\n\nText\n"),
    "YAML in a list before Markdown": Form(
        "md", "urls:\n  - '@'", "'", True, "---\ntitle: \u00e9\n", "\n---\n\nText\n"
    ),
    "TOML before Markdown": Form("md", "url = '@'", "'", True, "+++\ntitle = '\u00e9'\n", "\n+++\n\nText\n"),
    "reStructuredText reference": Form("rst", SEES + "`x <@>`__ y", " |#"),
    "reStructuredText named reference": Form("rst", SEES + "`x <@>`_ y", " |#"),
    "reStructuredText target": Form("rst", ".. _x: @\n\nSee x_.", " |#"),
    "reStructuredText anonymous target": Form("rst", "See x__.\n\n__ @", " |#"),
    "reStructuredText image": Form("rst", ".. image:: @\n   :alt: \u00e9", " |"),
    "reStructuredText figure": Form("rst", ".. figure:: @\n\n   Text", " |"),
    "reStructuredText image with a target": Form("rst", ".. image:: b.png\n   :target: @", " |", True),
    "reStructuredText substitution": Form("rst", ".. |x| image:: @\n\nSee |x|.", " |"),
    "reStructuredText address": Form("rst", SEES + "@ y", " |#^\u00e9", True),
    "reStructuredText field": Form("rst", ":home: `x <@>`__", " |#"),
    "reStructuredText HTML": Form("rst", '.. raw:: html\n\n   <a href="@">x</a>', '"'),
    "sitemap": Form(
        "xml",
        "<url><loc>@</loc></url>",
        "",
        True,
        XML + '<urlset xmlns="http://www.sitemaps.org/schemas/sitemap/0.9">',
        "</urlset>",
    ),
    "RSS link": Form("rss", "<link>@</link>", "", True, XML + "<rss><channel>\n", "</channel></rss>"),
    "RSS enclosure": Form(
        "rss",
        '<item><enclosure url="@" length="1" type="x/y"/></item>',
        '"',
        True,
        "<rss><channel>",
        "</channel></rss>",
    ),
    "RSS guid": Form("rss", "<item><guid>@</guid></item>", "", True, "<rss><channel>", "</channel></rss>"),
    "RSS description": Form(
        "rss",
        "<item><description>&lt;a href='@'>\u00e9&lt;/a></description></item>",
        "'",
        False,
        "<rss><channel>",
        "</channel></rss>",
    ),
    "RSS CDATA": Form(
        "rss",
        '<item><description><![CDATA[\u00e9 <img src="@">]]></description></item>',
        '"',
        False,
        "<rss><channel>",
        "</channel></rss>",
    ),
    "Atom link": Form("atom", '<link rel="self" href="@"/>', '"', False, XML + ATOM, "</entry></feed>"),
    "Atom id": Form("atom", "<id>@</id>", "", True, ATOM, "</entry></feed>"),
    "Atom content": Form(
        "atom", '<content type="html">&lt;img src="@">\u00e9</content>', '"', False, ATOM, "</entry></feed>"
    ),
    "OPML": Form(
        "opml", '<outline text="\u00e9" xmlUrl="@"/>', '"', False, '<opml version="2.0"><body>', "</body></opml>"
    ),
    "SVG link": Form("svg", '<a href="@"/>', '"', False, SVG, "</svg>"),
    "SVG image": Form("svg", '<image xlink:href="@"/>', '"', False, SVG, "</svg>"),
    "SVG style": Form("svg", "<g style=\"fill: url('@')\"/>", "\"'", False, SVG, "</svg>"),
    "XHTML": Form(
        "xhtml",
        "<p>\u00e9 <a href='@'>x</a></p>",
        "'",
        False,
        '<html xmlns="http://www.w3.org/1999/xhtml"><body>',
        "</body></html>",
    ),
    "DocBook": Form("docbook", '<para><ulink url="@">x</ulink></para>', '"', False, "<article>", "</article>"),
    "DITA": Form(
        "dita",
        '<p><xref href="@">x</xref></p>',
        '"',
        False,
        "<topic id='x'><title>\u00e9</title><body>",
        "</body></topic>",
    ),
    "POM": Form("pom", "<url>@</url>", "", False, '<project xmlns="http://maven.apache.org/POM/4.0.0">', "</project>"),
    "AppStream": Form("xml", '<url type="homepage">@</url>', "", True, '<component type="desktop">', "</component>"),
    "XInclude": Form(
        "xml",
        '<xi:include href="@"/>',
        '"',
        False,
        '<article xmlns:xi="http://www.w3.org/2001/XInclude">',
        "</article>",
    ),
    "style sheet of XML": Form("xml", '<?xml-stylesheet href="@"?>', '"', False, XML, SVG + "</svg>"),
    "CSS in quotes": Form("css", '/* \u00e9\U0001f600 */ a { background: url("@") }', '"\\'),
    "CSS without quotes": Form("css", "a { background: red url(@) }", "\"'() \\"),
    "CSS import": Form("css", "\x00import '@' print;", "'\\"),
    "CSS src": Form("css", "a { background: src('@') }", "'\\"),
    "JSON Feed": Form(
        "jsonfeed",
        '"home_page_url": "@"',
        '"\\',
        True,
        '{"version": "https://jsonfeed.org/version/1.1", "title": "\u00e9",\n',
        "}\n",
    ),
    "JSON Feed item": Form(
        "jsonfeed",
        '"items": [{"id": "1", "url": "@"}]',
        '"\\',
        True,
        '{"version": "https://jsonfeed.org/version/1.1",\n',
        "}\n",
    ),
    "JSON Feed HTML": Form(
        "jsonfeed",
        '"items": [{"id": "1", "content_html": "\u00e9<a href=\'@\'>"}]',
        "\"\\'",
        False,
        '{"version": "https://jsonfeed.org/version/1.1",\n',
        "}\n",
    ),
    "notebook": Form(
        "ipynb",
        "\u00e9 [x](@) y",
        ' ()|"\\',
        False,
        NOTEBOOK,
        '\\n"]}],\n "metadata": {}, "nbformat": 4, "nbformat_minor": 5}\n',
    ),
    "notebook image": Form(
        "ipynb",
        "\u00e9 ![x](<@>) y",
        '|"\\',
        False,
        NOTEBOOK,
        '\\n"]}],\n "metadata": {}, "nbformat": 4, "nbformat_minor": 5}\n',
    ),
}
"""The forms, by their names. (A NUL is ``@`` itself.)"""

FAULTS: Tuple[Tuple[str, int, str], ...] = (
    ("http://h/a^b", 10, "code-point"),
    ("http://h/a b", 10, "code-point"),
    ("pic|1.png", 3, "code-point"),
    ("d/my pic.png", 4, "code-point"),
    ("http://h/%4?a", 9, "percent"),
    ("http://h/\u00e9/50%", 13, "percent"),
    ("http://x_y/", 7, "host-domain"),
    ("https://h:8a/", 11, "port-digit"),
    ("http://h:70000/", 9, "port-range"),
    ("http://h/?a[]=1", 11, "code-point"),
    ("http://h/#a#b", 11, "code-point"),
)
"""Wrong links, each with its first wrong place, from 0, and its rule by the URL Standard (4.3, 3.4)."""


def fits(form: Form, link: str) -> bool:
    """Whether a link may be written in a form."""
    return not any(it in link for it in form.not_in) and ("://" in link or not form.has_scheme)


def text_of(form: Form, link: str) -> Tuple[str, int]:
    """A document with the link, and where in it the link begins."""
    first, second = form.text.split("@")
    before = form.before + first.replace("\x00", "@")
    return before + link + second.replace("\x00", "@") + form.after, len(before)
