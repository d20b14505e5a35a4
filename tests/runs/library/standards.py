"""Tests of how urlcheck.documents reads what the HTML Standard and XML Base say of links: image candidates, refreshes,
bases within bases. What has to be found was worked out by hand from their text. The package is on PYTHONPATH."""

import time
import unittest

from room import Texts

ATOM = "http://www.w3.org/2005/Atom"
XHTML = "http://www.w3.org/1999/xhtml"

CANDIDATES = (
    # The splitting loop passes over commas and spaces, and nothing else is a space.
    ("", []), (" ,\t,", []), (", ,a", ["a"]), ("\na\f1x,\rb", ["a", "b"]), ("a\u00a01x", ["a\u00a01x"]), ("\va", ["\va"]),
    # A URL reaches to the next space; the commas at its end aren't part of it, and end the candidate.
    ("a,b", ["a,b"]), ("a,b 1x,c", ["a,b", "c"]), ("a, b", ["a", "b"]), ("a,, b", ["a", "b"]), ("a,,,", ["a"]),
    ("a,, 1x", ["a", "1x"]), ("data:image/png;base64,AA== 1x, b", ["data:image/png;base64,AA==", "b"]),
    # A comma ends descriptors, also without a space after it, and right after spaces.
    ("a 1x,b 2x", ["a", "b"]), ("a 100w 50h,b", ["a", "b"]), ("a ,b", ["a", "b"]), ("a 1x ,, b", ["a", "b"]),
    # But parentheses keep spaces and commas, up to the first that closes, or otherwise to the end.
    ("a f(1, 2) 1x, b", ["a", "b"]), ("a (, ) , b", ["a", "b"]), ("a f((1), b", ["a", "b"]), ("a f()(,) 1x, b", ["a", "b"]),
    ("a 1x (b, c 2x", ["a"]),
    # A candidate with a word that isn't a descriptor isn't one: the space before it was to be written %20.
    ("my photo.png 1x, b.png 2x", ["my photo.png", "b.png"]), ("my photo.png, b.png", ["my photo.png", "b.png"]),
    ("a b\n c.png 100w 50h,d e", ["a b\n c.png", "d e"]), ("a.png, b c.png", ["a.png", "b c.png"]), ("a large", ["a large"]),
    ("photo 2.png .5x", ["photo 2.png"]), ("a (1).png 2x", ["a (1).png"]), ("a f(b, c 2x", ["a f(b, c 2x"]),
    # What was perhaps to be a descriptor isn't part of the link, nor what is after one.
    ("a 2", ["a"]), ("a x2", ["a"]), ("a 100px", ["a"]), ("a -1x", ["a"]), ("a +.5e-3X", ["a"]), ("a w", ["a"]),
    ("a 1x b.png 2x", ["a"]),
)

REFRESHES = (
    # A time of digits, or a full stop; then a space, `;` or `,` has to follow; without more the page is loaded again.
    ("0;a", "a"), (" 5 ; a ", "a"), ("5.0.1,a", "a"), (".5;a", "a"), (".;a", "a"), ("5 a", "a"), ("5;;a", ";a"), ("5,;a", ";a"),
    ("a", None), (";a", None), ("5a", None), ("-1;a", None), ("+1;a", None), ("\u00a05;a", None), ("5\v;a", None),
    ("", None), ("5", None), ("5;", None), ("5; ", None),
    # `url`, `=` and a quote, each with spaces after it, may be before the URL.
    ("0;url=a", "a"), ("0; URL\t= 'a b' c", "a b"), ("0;uRl='a", "a"), ("0;'a'b", "a"), ("0;url= ' a '", "a"),
    ("0;url", "url"), ("0;url a", "url a"), ("0;ur=a", "ur=a"), ("0;u'a'", "u'a'"), ("0;url=url=a", "url=a"), ("0;url=''", None),
    ("0;url=a'b", "a'b"),
)


class Standards(Texts):
    def test_candidates(self):
        """HTML Standard, section 4.8.4.3, `parse a srcset attribute`."""
        for value, wanted in CANDIDATES:
            found, at = "", 0
            for link in wanted:
                at = value.index(link, at)
                _, end, before = value[:at].rpartition("\n")
                column = len(before) + (1 if end else 15)
                found += "a.html:{}:{}:{}\n".format(1 + value[:at].count("\n"), column, link.replace("\n", "\t"))
                at += len(link)
            with self.subTest(value):
                self.write("a.html", '<img  srcset="{}">'.format(value))
                self.assertEqual(self.run_on("--list", "--quiet", "a.html"), (0, found, ""))
        for text in ('<source srcset="a b 1x">', '<link imagesrcset="a b 1x">'):
            self.write("a.html", text)
            self.assertIn(":a b\n", self.run_on("--list", "a.html")[1])
        self.write("a.html", '<p srcset="a b 1x"><img imagesrcset="a b 1x">')
        self.assertEqual(self.run_on("--list", "a.html")[1], "")
        self.write("a.xhtml", '<img xmlns="{}" srcset="a b.png 1x, c"/>'.format(XHTML))
        self.checks("a.xhtml", [("1:52", "code-point")])

    def test_spaces_in_candidates(self):
        """A space in a candidate is refused where it is, and the link is mended with its words."""
        self.write("a.html", '<img srcset="a.png 1x, my photo.png 2x">')
        status, out, _ = self.run_on("-q", "--format", "caret", "a.html")
        self.assertEqual((status, out.splitlines()), (1, [
            "a.html:1:26: error: U+0020 SPACE is not allowed in a URL [code-point]",
            "my photo.png",
            "  ^",
            "help: write my%20photo.png",
        ]))

    def test_refreshes(self):
        """HTML Standard, section 4.2.5.3, the shared declarative refresh steps."""
        for value, wanted in REFRESHES:
            with self.subTest(value):
                self.write("a.html", '<meta http-equiv=refresh content="{}">'.format(value))
                place = None if wanted is None else 35 + value.rindex(wanted)
                self.assertEqual(self.run_on("--list", "--quiet", "a.html")[1],
                                 "" if place is None else "a.html:1:{}:{}\n".format(place, wanted))

    def test_refreshes_of_xhtml(self):
        page = '<html xmlns="{}"><base href="urn:a"/>\n<meta http-equiv="Refresh" content="5; url=a&amp;b"/>\n{}</html>'
        self.write("a.xhtml", page.format(XHTML, '<meta name="x" content="5; url=c d"/><meta http-equiv="refresh"/>'))
        self.checks("a.xhtml", [("2:44", "opaque-base")])

    def test_places_after_references(self):
        """A violation is reported where it is in the source, even if that has references before it."""
        space = "code-point"
        for name, text, place in (
            # A reference may be read as two code points, and one that isn't one is read as itself.
            ("a.html", "<a href='?a&amp;b=1&#65;c d'>", "1:26"),
            ("b.html", "<a href='\n &ThickSpace;^'>", "2:14"),
            ("c.html", "<a href='x&thickapprox;&none;&#97; y'>", "1:35"),
            ("d.html", "<a href=' &#32;a&#x20;b '>", "1:17"),
            ("e.html", "<a href='&amp;%4'>", "1:15"),
            ("f.html", "<img srcset='a&amp;b 1x, &#99; d.png 2x'>", "1:31"),
            ("g.html", "<a ping='a&amp;b &amp;^'>", "1:23"),
            ("h.html", "<meta http-equiv=refresh content='0;url=&amp;^'>", "1:46"),
            # XML in attributes, in which a line's end is read as a space, and in texts.
            ("a.xml", "<x xmlns='{}'><link href='?a&amp;b=1&#65;c d'/></x>".format(ATOM), "1:68"),
            ("b.xml", "<x xmlns='{}'><link href='?a&#38;b\r\nc'/></x>".format(ATOM), "1:60"),
            ("c.xml", "<x><loc>\n http://h/?a&amp;b=1&#x43;c d </loc></x>", "2:28"),
            ("d.xml", "<x><loc>http://h/?a&amp;b<!-- x -->c<![CDATA[&d ]]>e</loc></x>", "1:48"),
            ("e.xml", "<x><loc>http://h/?a\r\nb&amp;c</loc></x>", "1:20"),
            ("f.xml", "<x><loc>http://h/a&amp;%4</loc></x>", "1:24"),
        ):
            with self.subTest(text):
                self.write(name, text)
                out = self.run_on("-q", name)[1]
                self.assertEqual(out.split(": error:")[0], name + ":" + place)
                self.assertEqual(out.count("\n"), 1)
        # What isn't a space of XML isn't taken off.
        self.finds("g.xml", "<x><loc>\n\u00a0a </loc></x>", "2:1:\u00a0a\n")
        # A value with very many of them is reported at its beginning, and one with many isn't.
        for count, place in ((10_000, "1:50010"), (10_001, "1:10")):
            self.write("z.html", "<a href='" + "&amp;" * count + "^'>")
            self.checks("z.html", [(place, space)])

    def test_comments(self):
        """HTML Standard, sections 13.2.5.43 to 13.2.5.52: what ends a comment, and what doesn't."""
        for comment in ("<!-->", "<!--->", "<!---->", "<!----->", "<!--x-->", "<!--x--!>", "<!----!>", "<!--<!-->", "<!--> -->",
                        "<!--<a href=z>-- >->--!-->"):
            with self.subTest(comment):
                text = comment + "<a href=x><!-- y -->"
                self.finds("a.html", text, "1:{}:x\n".format(len(comment) + 9))
        self.finds("a.html", "<!-- <a href=x> -- > --! > -><a href=y>", "")
        self.finds("a.html", "<!-- urlcheck: ignore --!>\n<a href=x>\n<a href=y>", "3:9:y\n")

    def test_style_sheets(self):
        """Associating Style Sheets with XML documents: an instruction counts only before the outermost element."""
        text = ('<?xml version="1.0"?>\n<?xml-stylesheet href="a b.css" title="t>1"\n  type=\'text/css\'?><?other href="^"?>\n'
                '<?xml-stylesheet type="text/xsl" href=\' \u00e9&amp;c d.xsl \' ?>\n<?xml-stylesheet?><?xml-stylesheet href=^?>\n'
                '<!-- urlcheck: ignore -->\n<?xml-stylesheet href="^"?>\n<?xml-stylesheet-2 href="^"?>\n'
                '<urlset>\n<?xml-stylesheet href="^"?>\n</urlset><?xml-stylesheet href="^"?>\n')
        for before in ("", "\ufeff"):
            for end in ("\n", "\r\n"):
                self.finds("a.xml", before + text.replace("\n", end), "2:24:a b.css\n4:41:\u00e9&c d.xsl\n")
                self.checks("a.xml", [("2:25", "code-point"), ("4:48", "code-point")])
        self.write("b.xhtml", '<?xml-stylesheet href="x"?><html xmlns="{}"><base href="urn:a"/></html>'.format(XHTML))
        self.checks("b.xhtml", [])
        self.checks("b.xhtml", [("1:24", "opaque-base")], "--base", "urn:b")

    def test_bases_within_bases(self):
        """XML Base, section 4: each `xml:base` is relative to the one around it, the outermost to the document's own."""
        link = '<link href="//a^b"/>'
        # Against a scheme that isn't special a host may not have ^ by another rule than against http.
        opaque, domain = "host-code-point", "host-domain"
        for feed, rules in (
            ('<feed xml:base="foo://h/">{0}<e xml:base="b/c">{0}<e xml:base="../d">{0}</e>{0}</e>{0}</feed>{0}',
             [opaque] * 5 + [domain]),
            ('<e xml:base="foo://h/"><e xml:base="b" /><e xml:base="http://k/">{0}<e xml:base="c">{0}</e></e>{0}</e>{0}',
             [domain, domain, opaque, domain]),
            ('<e xml:base="foo:/a"><e xml:base="">{0}<e xml:base="#f">{0}<e xml:base="?q">{0}</e></e></e></e>', [opaque] * 3),
            # One that isn't valid is passed over.
            ('<e xml:base="foo://h/"><e xml:base="a b">{0}<e xml:base="c">{0}</e></e></e>', ["code-point", opaque, opaque]),
            ('<e xml:base="a"><e xml:base="b">{0}</e></e>', [domain]),
            ('<e xml:base="http://h/x/..//y"><e xml:base="z">{0}</e></e>', [domain]),
            ('<e xml:base="foo://h"><e xml:base="?q">{0}</e></e>', [opaque]),
        ):
            with self.subTest(feed):
                self.write("a.xml", '<a xmlns="{}">{}</a>'.format(ATOM, feed.format(link)))
                out = self.run_on("-q", "a.xml")[1]
                self.assertEqual([line.rpartition("[")[2].rstrip("]") for line in out.splitlines()], rules)

    def test_bases_within_opaque_bases(self):
        """A path that is opaque has no reference but a fragment relative to it."""
        feed = '<feed xmlns="{}" xml:base="{}">\n<link href="x"/>\n<e xml:base="{}"><link href="y"/>\n<icon>z</icon></e></feed>'
        for outer, inner, places in (
            ("urn:a", "#f", ["2:13", "3:30", "4:7"]),
            ("urn:a", "b", ["2:13", "3:14", "3:29", "4:7"]),
            ("urn:a", "http://h/", ["2:13"]),
            ("http://h/", "urn:a", ["3:33", "4:7"]),
            ("http://h/", "b/", []),
        ):
            with self.subTest(outer=outer, inner=inner):
                self.write("a.xml", feed.format(ATOM, outer, inner))
                self.checks("a.xml", [(it, "opaque-base") for it in places])
        # The outermost is read against what the caller names.
        self.write("a.xml", feed.format(ATOM, "c/", "../d/"))
        self.checks("a.xml", [], "--base", "http://k/")
        self.checks("a.xml", [(it, "opaque-base") for it in ("1:53", "2:13", "3:14", "3:33", "4:7")], "--base", "urn:k")

    def test_bases_within_the_base_of_a_page(self):
        """In XHTML `xml:base` is relative to what `base` says, and that only to the document's address."""
        page = '<html xmlns="{}">{}</html>'
        self.write("a.xhtml", page.format(XHTML, '<base href="foo://h/"/>\n<p xml:base="b/"><a href="//a^b"/></p>'))
        self.checks("a.xhtml", [("2:30", "host-code-point")])
        self.write("b.xhtml", page.format(XHTML, '<p xml:base="urn:a"><base href="b/"/>\n</p><a href="x"/>'))
        self.checks("b.xhtml", [])

    def test_many_bases(self):
        """Bases within bases get no longer from one to the next."""
        self.write("a.xml", '<e xml:base="{}/">'.format("a" * 2000) * 9000 + "</e>" * 9000)
        begun = time.monotonic()
        self.assertEqual(self.run_on("-q", "a.xml"), (0, "", ""))
        self.assertLess(time.monotonic() - begun, 30)


if __name__ == "__main__":
    unittest.main()
