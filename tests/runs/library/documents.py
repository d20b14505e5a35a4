"""Tests of urlcheck.documents: where links are, and the reports on them. The package is on PYTHONPATH."""

import importlib.util
import os
import re
import subprocess
import sys
import unittest

from room import TOP, Texts

PAGE = """<!DOCTYPE html><title>x <a href="no link"></title>
<base href="http://h/a/b">
<a href="ok">a</a> <a class=x href=' http://h/a b '>b</a>
<img src="x&amp;y z" srcset="a.png 1x, b.png 2x,,c.png 100w">
<meta http-equiv="Refresh" content="5; url='next page.html'">
<!-- urlcheck: ignore -->
<a href="{{ template }}">t</a>
<a
  title="1>2" href="urn:\u00e9 a" href="second">c</a>
<script>var text = '<a href="no link">';</script><textarea><a href="no link"></textarea>
<!-- <a href="no link"> --><a href="two
lines">z</a><A HREF=bare>b</A><a ping="/p /q r">p</a>
"""

PAGE_LINKS = """2:13:http://h/a/b
3:10:ok
3:38:http://h/a b
4:11:x&y z
4:30:a.png
4:40:b.png
4:50:c.png
5:45:next page.html
9:21:urn:\u00e9 a
11:37:two\tlines
12:21:bare
12:40:/p
12:43:/q
12:46:r
"""

FEED = """<?xml version="1.0" encoding="UTF-8"?>
<rss version="2.0" xmlns:a="http://www.w3.org/2005/Atom"><channel>
<link> http://h/a b </link><title>http://no/</title>
<a:link rel="self" xmlns:x="urn:x" href="http://h:99999/"/>
<item><guid isPermaLink="false">no link</guid><guid>http://h/%zz</guid>
<link>http://h/?a&amp;b</link><enclosure length="1" url="/\u00e9 x"/></item>
</channel></rss>
"""

FEED_LINKS = """3:8:http://h/a b
4:42:http://h:99999/
5:53:http://h/%zz
6:7:http://h/?a&b
6:58:/\u00e9 x
"""

SITEMAP = """<urlset xmlns="http://www.sitemaps.org/schemas/sitemap/0.9"><url><loc>
  http://h/ b</loc></url></urlset>
"""

PODCAST = """<rss xmlns:itunes="http://www.itunes.com/dtds/podcast-1.0.dtd" xmlns:m="http://search.yahoo.com/mrss/">
<itunes:image href="http://h/ b"/><image href="no link"/><itunes:image url="no link"/>
<item><m:title url="no link">no link</m:title>
<m:content type="x/y" url="http://h/c"/>
<m:thumbnail  url="d.png"/></item>
</rss>
"""

VIDEOS = """<urlset xmlns="http://www.sitemaps.org/schemas/sitemap/0.9"
 xmlns:v="http://www.google.com/schemas/sitemap-video/1.1"><url>
<v:video><v:thumbnail_loc>http://h/t</v:thumbnail_loc><v:title>no link</v:title>
<v:content_loc> http://h/ c</v:content_loc>
<v:player_loc> p</v:player_loc><content_loc>no link</content_loc></v:video></url></urlset>
"""

NOTES = """# Title [a](http://h/a%20b "t") and <http://h/%4>

> quote [b](<http://h/a b>) text ![img](http://[::1)
> more [ref] [c][two] `[no](no link)`

- item <a href="http://h:x/">html</a> someone@example.com
  [escaped](http://h/\\(a\\)^)

<!-- urlcheck: ignore -->
[meant so](http://h/^)

    [code](no link)

[ref]: http://h/^ref
[two]: <http://h/r 2> "title"
"""

NOTES_LINKS = """1:13:http://h/a%20b
1:38:http://h/%4
3:14:http://h/a b
3:41:http://[::1
6:17:http://h:x/
7:13:http://h/(a)^
14:8:http://h/^ref
15:9:http://h/r 2
"""


class Documents(Texts):
    def test_html(self):
        self.finds("a.html", PAGE, PAGE_LINKS)
        self.checks("a.html", [("3:48", "code-point"), ("4:18", "code-point"), ("5:49", "code-point"),
                               ("9:26", "code-point"), ("11:40", "code-point")])

    def test_empty_links_of_html(self):
        """An attribute without a value has the empty one (HTML Standard, section 13.1.2.3); a list of none has no link."""
        self.finds("a.html", "<a href>\n<a HREF class=x><a href=><a href=''><a href = \"\">\n<img srcset src><a ping>\n",
                   "1:8:\n2:8:\n2:25:\n2:35:\n2:48:\n3:16:\n")
        self.checks("a.html", [("3:16", "empty")])
        self.checks("a.html", [], "--no-empty")
        self.write("b.html", "<base href><base href='urn:a'><a href=x><a href='y z'>")
        self.checks("b.html", [("1:51", "code-point")])
        self.write("c.html", "<base href='urn:a'><a href>")
        self.checks("c.html", [("1:27", "opaque-base")])

    def test_character_references_of_html(self):
        """As the HTML Standard reads them in attributes, sections 13.2.5.72 to 13.2.5.80."""
        for written, read in (
            ("?a&lt=2&copy=3", "?a&lt=2&copy=3"),
            ("?a&ltx&copy1&reg/", "?a&ltx&copy1\u00ae/"),
            ("&lt;&amp;&amp&quot;&copy;&none;", "<&&\"\u00a9&none;"),
            ("&notit;&notin;&ThickSpace;y", "&notit;\u2209\u205f\u200ay"),
            ("&#97;&#x62&#X63;&#9;&#32;d", "abc\t d"),
            ("&#127;&#1;&#x80;&#x81;&#xFDD0;", "\x7f\x01\u20ac\x81\ufdd0"),
            ("&#0;&#xD800;&#x110000;&#xfffffffff1;", "\ufffd\ufffd\ufffd\ufffd"),
            ("&#;&#x;&;&=&#00000000000097;", "&#;&#x;&;&=a"),
        ):
            with self.subTest(written):
                self.finds("a.html", "<a href='x{}y'>".format(written), "1:10:x{}y\n".format(read))

    def test_tokens_of_html(self):
        """Tags, comments and what isn't markup, as the HTML Standard's tokenizer tells them apart, sections 13.2.5.1
        to 13.2.5.71: where a link is there is a number, and where none is there is `no`."""
        for text in (
            "<script><!--<script></script><a href=no></script><a href=1>", "<script><!--<script>--></script><a href=1>",
            "<script><!--><script></script><a href=1></script>", "<script><!--</script><a href=1>", "<script>x</script y='<a href=no>'><a href=1>",
            "<Script/><a href=no></sCRIPT/><a href=1>", "<title><a href=no></titlex><a href=no></title><a href=1>",
            "<xmp><a href=no></xmp ><a href=1><textarea><a href=no><!--</textarea><a href=2>", "<plaintext><a href=no></plaintext><a href=no>",
            "<a 'a href=1>", "<img \"q\"=x src=1>", "<a href=1 <a href=no>", "<a href=no", "<a href='no>", "<a href='1'href='no'x><a/href=2/>",
            "<a HREF = 1><a href\n=\n'2'><a href=3/><a ='no' href=4><a =href=no>", "<!--><a href=1><!---><a href=2><!--x--!><a href=3><!-- --><a href=4>",
            "<!-- <a href=no> ->", "<![CDATA[<a href=no>]]><a href=1>", "<!DOCTYPE x \"><a href=1>", "<?x '><a href=1>", "</ <a href=no>><a href=1>",
            "</><a href=1>< a href=no><1 href=no>", "</p title='>' x=\"<a href=no>\"><a href=1></a href=no>", "<p title='<a href=no>'><a href=1>",
            "<p a b='c' d=\"e\"><p a b='c' d=\"<a href=no>\"><a href=1>", "<a\0 href=1><a \0href=no>", "<trac\u212a src=no><track src=1>",
            # (within SVG and MathML as without)
            "<svg><title><a href=no></title></svg><a href=1>", "<math><![CDATA[ > <a href=1> ]]></math>",
        ):
            with self.subTest(text):
                self.write("a.html", text)
                status, out, _ = self.run_on("--list", "-q", "a.html")
                found = [it.rsplit(":", 1)[1].rstrip("/") for it in out.splitlines()]
                self.assertEqual((status, found), (0, re.findall("[1-9](?=[ />'])", re.sub("<1|[0-9]{2}", "", text))))

    def test_xml(self):
        self.finds("a.rss", FEED, FEED_LINKS)
        self.checks("a.rss", [("3:18", "code-point"), ("4:51", "port-range"), ("5:62", "percent"), ("6:60", "code-point")])
        self.finds("sitemap.xml", SITEMAP, "2:3:http://h/ b\n")
        self.finds("videos.xml", VIDEOS, "3:27:http://h/t\n4:17:http://h/ c\n5:16:p\n")
        self.finds("podcast.rss", PODCAST, "2:21:http://h/ b\n4:28:http://h/c\n5:20:d.png\n")

    def test_what_names_something_in_feeds(self):
        """What may name something by a URL is a link where it begins as one, and otherwise it is another word."""
        spaces = 'xmlns:m="http://search.yahoo.com/mrss/" xmlns:d="http://purl.org/dc/elements/1.1/"'
        text = """<rss {0}><item>
<category domain="{1}">x</category><m:category scheme="{1}">x</m:category>
<m:rating scheme="{1}">x</m:rating>
<d:source>{1}</d:source>
<d:identifier> {1}</d:identifier></item></rss>"""
        for name in ("http://h/a b", "urn:a b", "HTTPS://h/^"):
            places = (2, 19), (2, 53 + len(name)), (3, 19), (4, 11), (5, 16)
            self.finds("a.rss", text.format(spaces, name), "".join("{}:{}:{}\n".format(*it, name) for it in places))
        for name in ("no link", "DOI: 10.1000/182", "urn", "a b:c", ""):
            self.finds("a.rss", text.format(spaces, name), "")
        self.finds("a.rss", '<rss {}>\n<m:copyright url="a b">x</m:copyright></rss>'.format(spaces), "2:19:a b\n")

    @unittest.skipUnless(importlib.util.find_spec("markdown_it"), "markdown-it-py isn't installed")
    def test_markdown(self):
        self.finds("a.md", NOTES, NOTES_LINKS)
        self.checks("a.md", [("1:47", "percent"), ("3:24", "code-point"), ("3:48", "host-ipv6"), ("6:26", "port-digit"),
                             ("7:27", "code-point"), ("14:17", "code-point"), ("15:19", "code-point")])

    @unittest.skipUnless(importlib.util.find_spec("markdown_it"), "markdown-it-py isn't installed")
    def test_empty_links_of_markdown(self):
        self.finds("a.md", "[a]() ![]( ) [b](<>) [c](x)\n\n[d]: )\n", "1:5:\n1:12:\n1:19:\n1:26:x\n")
        self.checks("a.md", [])

    @unittest.skipUnless(importlib.util.find_spec("markdown_it"), "markdown-it-py isn't installed")
    def test_what_stands_twice_in_markdown(self):
        """A link has its own place, even if the same is before it as text or in a destination."""
        self.finds("a.md", "`<http://h/a>` <http://h/a>\n\n`<a href='x'>` <a href='x'>\n\n\\<http://h/b> <http://h/b>\n\n"
                   "[x](<http://h/c>) <http://h/c>\n\n![<q cite=y>](z) <q cite=y>\n",
                   "1:17:http://h/a\n3:25:x\n5:16:http://h/b\n7:6:http://h/c\n7:20:http://h/c\n9:15:z\n9:26:y\n")

    @unittest.skipUnless(importlib.util.find_spec("markdown_it"), "markdown-it-py isn't installed")
    def test_tags_over_lines_of_markdown(self):
        """What nests a block isn't a part of a tag that reaches over its lines, and places are in the source."""
        text = ("- a <a\n  href=\"m n\">b</a>\n\n> c <a\n> href='o\n> p'>\n\n> <div>\n> <img\n>  src=\"s t\">\n> </div>\n\n"
                "d <a\nhref='?u&amp;v w'>\n\n> - <!-- urlcheck: ignore -->\n>   <a href='^'>\n\n- e <!-- urlcheck: ignore -->\n"
                "  [f](^)\n")
        links = "2:9:m n\n5:9:o\tp\n10:9:s t\n14:7:?u&v w\n"
        places = [(place, "code-point") for place in ("2:10", "5:10", "10:10", "14:15")]
        for end in ("\n", "\r\n"):
            self.finds("a.md", text.replace("\n", end), links)
            self.checks("a.md", places)

    @unittest.skipUnless(importlib.util.find_spec("markdown_it"), "markdown-it-py isn't installed")
    def test_code_points_that_markdown_replaces(self):
        """A single carriage return ends a line of Markdown (CommonMark, section 2.1), and U+0000 is read as U+FFFD."""
        self.finds("a.md", "a\r[b](c)\r\r# [d](e)\n\n[f](g)\n", "1:7:c\n1:17:e\n3:5:g\n")
        self.finds("b.md", "[a](b\0c) [d](e)\n", "1:5:b\ufffdc\n1:14:e\n")

    @unittest.skipIf(importlib.util.find_spec("markdown_it"), "markdown-it-py is installed")
    def test_markdown_without_its_package(self):
        self.write("a.md", NOTES)
        status, out, said = self.run_on("--list", "a.md")
        self.assertEqual((status, out), (2, ""))
        self.assertIn("pip install markdown-it-py", said)

    def test_messages(self):
        self.write("a.html", """<a href="http://u:p@h/"><a href="http://u@h/"><a href="http://h:8x/">
<a href="foo://a^b"><a href="a b"><a href="x%4"><a href="a\x7f"><a href="a\u009f"><a href="a\ufdd0">
""")
        self.assertEqual(self.run_on("a.html")[1].splitlines(), [
            "a.html:1:19: error: a URL string has no credentials: no user name, password or @ before its host; leave them out [port-digit]",
            "a.html:1:41: error: a URL string has no credentials: no user name, password or @ before its host; leave them out [host-domain]",
            "a.html:1:66: error: U+0078 LATIN SMALL LETTER X is not allowed in a port [port-digit]",
            "a.html:2:17: error: U+005E CIRCUMFLEX ACCENT is not allowed in a host [host-code-point]",
            "a.html:2:31: error: U+0020 SPACE is not allowed in a URL [code-point]",
            "a.html:2:45: error: U+0025 PERCENT SIGN has to be followed by two hex digits; this escape is cut off [percent]",
            "a.html:2:59: error: U+007F DELETE is not allowed in a URL [code-point]",
            "a.html:2:72: error: U+009F is not allowed in a URL [code-point]",
            "a.html:2:85: error: U+FDD0 <noncharacter> is not allowed in a URL [code-point]",
        ])

    def test_hosts(self):
        """Why a host isn't a valid domain, under each profile."""
        wide = "; --profile wide allows it"
        empty, long = "a label of this domain is empty", "a label of this domain has more than 63 code points"
        outer = "a label of this domain begins or ends with -" + wide
        inner = "a label of this domain has -- in its third and fourth place" + wide
        none, point = "the host that begins here is not a valid domain", "U+{} is not allowed in a domain"
        code, label = " is not the Punycode of a valid label", "a" * 64
        for profile, rows in (
            ("standard", (
                ("exa mple.com/", point.format("0020 SPACE")), ("a%41/", point.format("0025 PERCENT SIGN")),
                ("x.._!/", point.format("005F LOW LINE")), ("\u00e9_/", point.format("005F LOW LINE") + wide),
                ("a^b:80", point.format("005E CIRCUMFLEX ACCENT")), ("a\x7fb?", point.format("007F DELETE")),
                ("a..b/_", empty), (".", empty), (".a?_", empty), ("\u00e9..b:80", empty), ("a..", empty),
                ("b." + label + "./", long), ("xn--" + label, long), ("a-:80/", outer), ("a.-b.c#_", outer),
                ("ab--c.-", outer), ("a.bc--d/", inner), ("XM--a#", inner), ("Xn--a-/", "Xn--a-" + code), ("\u00ad/", none),
                ("-\u3002a/", none + wide), ("\u00e9" * 64, none),
            )),
            ("wide", (
                ("x_y!/", point.format("0021 EXCLAMATION MARK")), ("a..b/", empty), (label, long), ("xn--a-/", "xn--a-" + code),
            )),
            ("parser", (
                ("x_y! z/", point.format("0020 SPACE")), ("a..%20/", none),
                ("%<>/", point.format("003C LESS-THAN SIGN")), ("a\tb/", point.format("0009 CHARACTER TABULATION")),
            )),
        ):
            self.write("a.html", "".join('<a href="http://{}">\n'.format(host) for host, _ in rows))
            lines = self.run_on("--profile", profile, "a.html")[1].splitlines()
            for (host, said), line in zip(rows, lines):
                with self.subTest(profile=profile, host=host):
                    self.assertRegex(line, "^a.html:[0-9]+:17: error: {} \\[host-domain\\]$".format(re.escape(said)))
            self.assertEqual(len(lines), len(rows))

    def test_bases(self):
        self.write("none.html", '<a href="//h/C|">')
        self.checks("none.html", [("1:15", "code-point")])
        self.write("base.html", '<base href="urn:a"><a href="x">')
        self.checks("base.html", [("1:29", "opaque-base")])
        # (the Standard lets no base be of these schemes, and a further one doesn't count)
        self.write("data.html", '<base href="DATA:,">\n<base href="urn:a">\n<a href="x"><a href="y z">')
        self.checks("data.html", [("3:23", "code-point")])
        self.write("script.xhtml", '<html xmlns="http://www.w3.org/1999/xhtml"><base href="javascript:x"/>\n'
                   '<base href="urn:a"/><a href="x"/><a href="y z"/></html>')
        self.checks("script.xhtml", [("2:44", "code-point")])
        self.write("given.html", '<a href="/C:/x"><a href="//">')
        self.checks("given.html", [("1:10", "drive-after-host"), ("1:28", "host-missing")], "--base", "file://h/a")
        status, _, said = self.run_on("--base", "x", "none.html")
        self.assertEqual(status, 2)
        self.assertIn("the base is refused at place 0: it has no scheme [no-scheme]", said)
        for base, wanted in (
            ("http://a_b/", "7: U+005F LOW LINE is not allowed in a domain; --profile wide allows it [host-domain]"),
            ("http://h/a b", "10: U+0020 SPACE is not allowed in a URL [code-point]"),
            ("http://u@h/", "7: a URL string has no credentials: no user name, password or @ before its host; leave them out"),
        ):
            status, _, said = self.run_on("--list", "--base", base, "none.html")
            self.assertEqual(status, 2)
            self.assertIn("urlcheck-documents: the base is refused at place " + wanted, said)

    def test_bases_whose_text_is_refused(self):
        """A base may be valid though the text of its URL isn't, because a `..` or a `.` in its path is removed."""
        space, drive, host = ("2:11", "code-point"), ("2:24", "drive-after-host"), ("2:42", "host-missing")
        for base, places in (
            ("http://h/a/..//b?c//d", [space, host]),
            ("/a/..//b", [space, host]),
            ("//h/./a/../../..//b", [space, host]),
            ("file://h/./C:/x", [space, drive]),
            ("file:///a/..//b", [space]),
            ("foo://h/a/..//b", [space]),
            ("foo:///a/..//b", [space]),
            ("foo:/a/..//b", [space]),
        ):
            with self.subTest(base):
                self.write("a.html", '<base href="{}">\n<a href="x y"><a href="/C:/z"><a href="///">'.format(base))
                self.checks("a.html", places)

    def test_bases_of_xhtml(self):
        """The first `base` with an `href` counts for what a page has after it, but where `xml:base` is around."""
        page = '<html xmlns="http://www.w3.org/1999/xhtml" xmlns:x="http://www.w3.org/1999/xlink">{}</html>'
        for name, text, places in (
            ("a.xhtml", '\n<a href="x"/><base/><base target="y"/><base href=" urn:a "/><a href="x"/>', ["2:70"]),
            ("a.xht", '\n<base href="http://h/"/>\n<base href="urn:a"/><a href="x"/>', []),
            ("b.xhtml", '\n<base href="urn:a"/>\n<base href="y"/><base href="a b"/><img src="x"/>',
             ["3:30 code-point", "3:45"]),
            # One that isn't valid is passed over, and the next doesn't count.
            ("c.xhtml", '\n<base href="a b"/>\n<base href="urn:a"/><a href="x"/>', ["2:14 code-point"]),
            ("d.xhtml", '<base href="urn:a"/>\n<p xml:base="http://h/"><a href="x"/></p><a href="#f"/><a href="?q"/>',
             ["2:65"]),
            ("e.xhtml", '<p xml:base="urn:a">\n<base href="http://h/"/><a href="x"/></p>\n<a href="x"/>', ["2:34"]),
            ("f.xhtml", '<base href="urn:a"/>\n'
             '<svg xmlns="http://www.w3.org/2000/svg"><a href="x"/><b x:href="y"/></svg>', ["2:50", "2:65"]),
            ("g.xhtml", '<base href="urn:a"/>\n<m xmlns="http://www.w3.org/1998/Math/MathML" x:href="x"/>', ["2:55"]),
            ("h.xml", '<base href="urn:a"/>\n<link xmlns="http://www.w3.org/2005/Atom" href="x"/><a href="x"/>',
             ["2:62"]),
            ("i.xhtml", '<BASE href="urn:a"/><base HREF="urn:a"/><base xmlns="" href="urn:a"/><a href="x"/>', []),
        ):
            with self.subTest(name):
                self.write(name, page.format(text))
                wanted = [(place, rule or "opaque-base") for place, _, rule in (it.partition(" ") for it in places)]
                self.checks(name, wanted)

    def test_profiles(self):
        self.write("a.html", '<a href="http://a_b/">')
        self.checks("a.html", [("1:17", "host-domain")])
        self.checks("a.html", [], "--profile", "wide")
        self.write("b.html", '<a href="http://a%2Db/"><a href="http://256/"><a href="urn:a b">')
        wide = [("1:17", "host-domain"), ("1:41", "host-number"), ("1:61", "code-point")]
        self.checks("b.html", wide, "--profile", "wide")
        self.checks("b.html", [("1:41", "host-number")], "--profile", "parser")

    def test_broken(self):
        """If a document can't be read from a place on, the links before it are written or checked."""
        self.write("b.xml", "<urlset><loc>http://h/ a</loc>\r<loc>http://h/ b</urlset>")
        place = "urlcheck-documents: b.xml:1:50: can't be read from here on: mismatched tag\n"
        status, out, said = self.run_on("--list", "b.xml")
        self.assertEqual((status, out), (2, "b.xml:1:14:http://h/ a\n"))
        self.assertEqual(said, place + "urlcheck-documents: 1 document, 1 link, 0 ignored\n")
        status, out, said = self.run_on("b.xml")
        self.assertEqual((status, out), (2, "b.xml:1:23: error: U+0020 SPACE is not allowed in a URL [code-point]\n"))
        self.assertEqual(said, place + "urlcheck-documents: 1 document, 1 link, 1 refused, 0 ignored\n")
        for text, wanted in (
            ("<rss><a>\n", "2:1: can't be read from here on: the document ends within an element"),
            ("", "1:1: can't be read from here on: no element found"),
            ("\n<!-- x -->\n", "3:1: can't be read from here on: no element found"),
            ("<\u00e9>\u00e9<x y=<>", "1:10: can't be read from here on: not well-formed (invalid token)"),
            ("\ufeff<a>\r\n</b>", "2:3: can't be read from here on: mismatched tag"),
        ):
            with self.subTest(text):
                status, _, said = self.run_on("--list", "--quiet", "--type", "xml", "-", stdin=text.encode("utf-8"))
                self.assertEqual((status, said), (2, "urlcheck-documents: -:{}\n".format(wanted)))
        self.write("e.xml", '<!DOCTYPE a [\n<!ENTITY b "c">]><a/>')
        said = self.run_on("--list", "e.xml")[2]
        self.assertRegex(said, "^urlcheck-documents: e.xml:2:[0-9]+: can't .*: an entity is declared, ")

    def test_the_page(self):
        """Each command of docs/DOCUMENTS.md writes what is there."""
        with open(os.path.join(TOP, "docs", "DOCUMENTS.md"), encoding="utf-8") as page:
            blocks = re.findall(r"^```shell-session\n(.*?)^```$", page.read(), re.M | re.S)
        self.assertTrue(blocks)
        prelude = 'urlcheck-documents() {{ "{}" -m urlcheck.documents "$@"; }}\n'.format(sys.executable)
        for command, wanted in re.findall(r"^\$ (.*)\n((?:(?!\$ ).*\n)*)", "".join(blocks), re.M):
            if re.match(r"urlcheck-documents .*\.md$", command) and not importlib.util.find_spec("markdown_it"):
                continue
            ran = subprocess.run(["bash", "-c", prelude + command], cwd=self.room, capture_output=True)
            self.assertEqual(ran.stdout.decode(), wanted, command)

    def test_a_byte_order_mark(self):
        self.finds("a.html", "\ufeff<a href=x>\n<a href=y>", "1:9:x\n2:9:y\n")
        self.finds("a.xml", '\ufeff<?xml version="1.0"?><urlset><loc>http://h/</loc></urlset>', "1:35:http://h/\n")
        if importlib.util.find_spec("markdown_it"):
            self.finds("a.md", "\ufeff[a]: x\n", "1:6:x\n")
        self.write("b.html", b"\xef\xbb\xbfa\xff")
        self.assertIn("b.html:1:2: this isn't UTF-8; if it is Latin-1: ", self.run_on("--list", "b.html")[2])


if __name__ == "__main__":
    unittest.main()
