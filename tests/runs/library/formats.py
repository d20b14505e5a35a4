"""Tests of the formats of urlcheck.documents. The package is on PYTHONPATH.

    formats.py PROGRAM: each format is compared with the report of `PROGRAM lint` on the same links, byte by byte. If a
    document says what no located line does, what has to be written is worked out by hand.
"""

import itertools
import json
import os
import re
import subprocess
import sys
import unittest
from xml.etree import ElementTree

import urlcheck
from room import PROGRAM, Room

LINT = [os.path.realpath(sys.argv.pop(1)), "lint", "--quiet", "--located"] if len(sys.argv) > 1 else []
FORMATS = ("gnu", "caret", "json", "github", "sarif", "checkstyle", "junit", "gitlab", "rdjson")
UNITS = ("code-points", "bytes", "utf16", "screen")
UNITS_OF_FORMATS = ("screen", "code-points", "utf16", "bytes", "utf16", "screen", "code-points", "utf16", "bytes")
UNITS_OF_SARIF = {"code-points", "utf16"}
UNITS_TAKEN = {"sarif": UNITS_OF_SARIF, "rdjson": {"bytes"}}
BASE = "https://example.com/"

RULES = ("http:/h", "http:///a", "http://a..b/", "http://256/", "http://[::1/", "foo://a^b", "http://h:x/",
         "http://h:99999/", "http://h//a", "a^", "%4", "http:\\\\h\\a", "100%\t", "x", "http://2001:db8::1/", "//::1/",
         "file://h:80/", "file://C:/x", "FILE://c|", "file:///C|x", "file://h/C|/x")
"""Links that violate rules, and some that violate none."""

NAMES = ("two words.html", "b\u00fccher.html", "\u65e5\u672c.html", "a%20b,c;d=e.html", "<&\"'>.html", "C:\\x.html",
         "e\u0301 \U0001f600.html", "~a+b(c)#?.html", "-x.html", "s p/\u00e9/[a].html")


def page(links, before=("",)):
    """A document of HTML with these links, which have no character reference and no line's end, each after a text."""
    return "".join("{}<a href='{}'>\n".format(before[at % len(before)], link) for at, link in enumerate(links))


class Reported(Room):
    """Reports on the documents of a folder."""

    def reported(self, form, *words):
        """What is written in a format of the links of what is named."""
        return self.run_on("--quiet", "--format", form, *words)[1].decode()

    def results(self, *words):
        """The results of a document of SARIF."""
        return json.loads(self.reported("sarif", *words))["runs"][0]["results"]


@unittest.skipUnless(LINT, "no program is named to hold the formats against")
class Compared(Reported):
    """Documents without a base of their own and without character references: `lint` writes the same."""

    def same(self, name, base=BASE, profile="standard", forms=FORMATS, unit="code-points"):
        """How many links are refused of what is named, once each format was found to be as `lint` writes it: in this unit, or in
        bytes where the format takes no other."""
        words = ("--base", base, "--profile", profile)
        for form in forms:
            own = "bytes" if form == "rdjson" else unit
            columns = () if own == "code-points" else ("--columns", own)
            status, links, said = self.run_on("--list", "--quiet", *columns, "--", name)
            self.assertEqual((status, said), (0, b""))
            with self.subTest(name=name, base=base, profile=profile, form=form, unit=own):
                words_of = (*words, *columns, "--format", form)
                status, wanted, _ = self.run_on(*words_of, "-", program=LINT, stdin=links)
                found = self.run_on("--quiet", *words_of, "--", name)
                if found != (status, wanted, b""):
                    self.fail(difference(found[1], wanted) or "it ends with {}: {}".format(found[0], found[2]))
        return len(self.run_on("--quiet", *words, "--", name)[1].splitlines())

    def test_sample(self):
        """Links that violate each rule, and long ones: each format with a unit, by a profile."""
        long_links = ["x" * at + "^" + "\u4e2d" * (2000 - at) for at in (0, 99, 101, 1000, 1999, 2000)]
        # (what takes several columns of a unit or none)
        before = ("h\u0301", "\u65e5\u672c", "\U0001f600", "\t", "\u200b", "\u17d8\u0378")
        self.write("sample.html", page([*RULES, *long_links, "^" * 20_000], before))
        profiles = itertools.cycle(("standard", "wide", "parser"))
        for form, unit, profile in zip(FORMATS, UNITS_OF_FORMATS, profiles):
            self.assertGreater(self.same("sample.html", profile=profile, forms=(form,), unit=unit), 18)

    def test_names(self):
        for name in NAMES:
            self.write(os.path.join("d", name), page(["a b", "c", "http://x_y/"]))
        folder = os.path.join(self.room, "d")
        for name in ("d", folder, "/" + folder):
            self.assertEqual(self.same(name), 2 * len(NAMES))
        # (of a name that is given with ./ that stays only in formats for people)
        for name in (".", "./d/"):
            self.assertEqual(self.same(name, forms=("gnu", "caret")), 2 * len(NAMES))
        # What turns a text's direction stays in a line of `gnu` that goes to a file.
        self.write("e/\u202ea\u2028.html", page(["a b"]))
        self.assertEqual(self.same("e", forms=FORMATS[1:]), 1)

    def test_columns_without_a_word(self):
        """SARIF has no word for two units, and reviewdog counts bytes: others are refused as `lint` refuses them."""
        self.write("a.html", page(["a b"]))
        for form, unit in ((form, unit) for form, taken in UNITS_TAKEN.items() for unit in sorted(set(UNITS) - taken)):
            words = ("--format", form, "--columns", unit)
            for base in (BASE, "no base"):
                status, written, said = self.run_on("--base", base, *words, "-", program=LINT)
                self.assertEqual((status, written), (2, b""))
                wanted = said.replace(b"urlcheck: ", b"urlcheck-documents: ").replace(b"\nwords\n", b"\n")
                self.assertEqual(self.run_on("--base", base, *words, "a.html"), (2, b"", wanted))

    def test_documents_that_are_not_read(self):
        """A document that can't be read is in each format as a file is in the report of `lint`; `github` has one more line."""
        for form in FORMATS:
            status, wanted, _ = self.run_on("--format", form, "unread.html", program=LINT)
            if form == "github":
                wanted += b"::error file=unread.html,title=not-read::can't be read: there is no such file\n"
            with self.subTest(form):
                found = self.run_on("--quiet", "--format", form, "unread.html")
                self.assertEqual(found[:2], (status, wanted))
                self.assertEqual((status, b"unread.html" in wanted), (2, form == "github"))


def difference(found, wanted):
    """The first line that isn't the one that is wanted, shortened."""
    lines = zip(found.split(b"\n") + [b""], wanted.split(b"\n") + [b""])
    first = next(((it, other) for it, other in lines if it != other), None)
    return first and "it writes\n{}\nand not\n{}".format(*(line[:1000].decode("utf-8", "replace") for line in first))


class Alone(Reported):
    """What no located line says."""

    def test_a_base_of_the_document(self):
        """A link is checked and mended against the base that its document names."""
        self.write("a.html", '<base href="http://h/">\n<a href="http:a">')
        self.write("b.html", '<a href="http:a">')
        self.write("c.html", '<base href="urn:a">\n<a href="x"><a href="#x">')
        line = ('{"column":15,"cut":false,"file":"a.html","kind":"changed","line":2,"mended":"http://a",'
                '"message":"// has to follow this scheme","offered":true,"rule":"two-slashes","text":"http:a"}\n')
        self.assertEqual(self.reported("json", "a.html"), line)
        # Against a base of another scheme it isn't a reference, and is read as what is written in its place.
        line = line.replace("changed", "same").replace("a.html", "b.html").replace('"line":2', '"line":1')
        self.assertEqual(self.reported("json", "b.html"), line)
        self.assertEqual(self.reported("github", "c.html"), "::error file=c.html,line=2,col=10,title=opaque-base::"
                         + urlcheck.sentence("opaque-base") + "\n")
        self.assertNotIn("mended", self.reported("json", "c.html"))
        self.assertEqual(self.reported("caret", "a.html"), "a.html:2:15: error: // has to follow this scheme "
                         "[two-slashes]\nhttp:a\n     ^\nhelp: write http://a\n")
        fix = self.fix("a.html", (2, 10, 2, 16), "http://a", "changed")
        self.assertEqual(self.results("a.html")[0]["fixes"], [fix])

    def fix(self, uri, region, text, kind):
        """A fix: `text` is from a line and a column to a line and the column after it."""
        line, start, last, end = region
        deleted = {"startLine": line, "startColumn": start, "endColumn": end}
        if last != line:
            deleted["endLine"] = last
        said = {"same": "write the same URL as a valid URL string",
                "changed": "write a valid URL string, which may be another URL"}
        return {"artifactChanges": [{"artifactLocation": {"uri": uri}, "replacements": [
            {"deletedRegion": deleted, "insertedContent": {"text": text}}]}], "description": {"text": said[kind]}}

    def test_what_is_unseen_before_the_scheme(self):
        """It is named, as `lint` names it."""
        self.write("a.xml", "<urlset><loc>\u200bhttp://h/</loc></urlset>")
        found = json.loads(self.reported("json", "a.xml"))
        self.assertEqual((found["message"], found["rule"]), ("U+200B is before the scheme; leave it out", "no-scheme"))

    def test_character_references(self):
        """The place is that in the source, the text is the one that was read, and what is to be written has the references
        that its document needs."""
        self.write("a.html", "<a href='a&amp;b c'><a href='?a&b c'>")
        first, second = self.reported("json", "a.html").splitlines()
        self.assertEqual(first, '{"column":17,"cut":false,"file":"a.html","kind":"same","line":1,"mended":"a&amp;b%20c",'
                         '"message":"U+0020 SPACE is not allowed in a URL","offered":true,"rule":"code-point","text":"a&b c"}')
        self.assertEqual(json.loads(second)["column"], 34)
        first, second = self.results("a.html")
        # (the space, and below a reference of five code points)
        region = {"endColumn": 18, "startColumn": 17, "startLine": 1}
        self.assertEqual(first["locations"][0]["physicalLocation"]["region"], region)
        self.assertEqual(first["properties"]["text"], "a&b c")
        self.assertEqual(first["fixes"], [self.fix("a.html", (1, 10, 1, 19), "a&amp;b%20c", "same")])
        self.assertEqual(second["fixes"], [self.fix("a.html", (1, 30, 1, 36), "?a&b%20c", "same")])
        caret = self.reported("caret", "a.html").splitlines()
        self.assertEqual(caret[1:4], ["a&b c", "   ^", "help: write a&amp;b%20c"])
        self.write("b.xml", "<urlset><loc>http://h/?a&amp;b c</loc></urlset>")
        (found,) = self.results("b.xml")
        self.assertEqual(found["fixes"], [self.fix("b.xml", (1, 14, 1, 33), "http://h/?a&amp;b%20c", "same")])
        region = {"endColumn": 32, "startColumn": 31, "startLine": 1}
        self.assertEqual(found["locations"][0]["physicalLocation"]["region"], region)
        self.write("d.html", "<a href='a&#94;b'>")
        (found,) = self.results("d.html")
        # The wrong code point is written as five, and ends after them.
        region = {"endColumn": 16, "startColumn": 11, "startLine": 1}
        self.assertEqual(found["locations"][0]["physicalLocation"]["region"], region)
        # Without the tab `&amp;` would be there, which would be read as `&`.
        self.write("c.html", "<a href='a&am\tp;'>")
        self.assertEqual(json.loads(self.reported("json", "c.html"))["mended"], "a&amp;amp;")
        (found,) = self.results("c.html")
        self.assertEqual(found["fixes"], [self.fix("c.html", (1, 10, 1, 17), "a&amp;amp;", "same")])

    def test_a_link_over_two_lines(self):
        self.write("a.html", "<p>\n<a href='a\nb^'>")
        found = json.loads(self.reported("json", "a.html"))
        self.assertEqual((found["line"], found["column"], found["text"], found["mended"]), (2, 11, "a\nb^", "ab%5E"))
        self.assertEqual(found["message"], "U+000A LINE FEED is not allowed in a URL")
        self.assertEqual(self.results("a.html")[0]["fixes"], [self.fix("a.html", (2, 10, 3, 3), "ab%5E", "same")])
        (found,) = json.loads(self.reported("rdjson", "a.html"))["diagnostics"]
        suggestion = {"range": {"start": {"line": 2, "column": 10}, "end": {"line": 3, "column": 3}}, "text": "ab%5E"}
        self.assertEqual(found["suggestions"], [suggestion])
        where = {"start": {"line": 2, "column": 11}, "end": {"line": 2, "column": 12}}
        self.assertEqual(found["location"], {"path": "a.html", "range": where})
        self.assertEqual(self.reported("caret", "a.html").splitlines()[1:], ["a\ufffdb^", " ^", "help: write ab%5E"])

    def test_names(self):
        """A control in a name, and what isn't UTF-8: as each format writes them, and in `gnu` as without a format."""
        for name, gnu, text, path, attribute in (
            ("a\nb.html", "a\ufffdb.html", "a\nb.html", "a%0Ab.html", "a&#10;b.html"),
            ("\t\x1b\x7f.html", "\t\ufffd\ufffd.html", "\t\x1b\x7f.html", "%09%1B%7F.html", "&#9;\ufffd\x7f.html"),
            ("a\u202eb.html", "a\ufffdb.html", "a\u202eb.html", "a%E2%80%AEb.html", "a\u202eb.html"),
            (b"\xff\xe9.html", os.fsdecode(b"\xff\xe9.html"), "\ufffd\ufffd.html", "%EF%BF%BD%EF%BF%BD.html", "\ufffd\ufffd.html"),
        ):
            self.write(name, "<a href='a b'>")
            with self.subTest(name):
                written = self.run_on("--quiet", "--format", "gnu", name)
                self.assertEqual(written, self.run_on("--quiet", name))
                self.assertTrue(written[1].startswith(gnu.encode("utf-8", "surrogateescape") + b":1:11: error: "))
                self.assertEqual(json.loads(self.reported("json", name))["file"], text)
                command = "::error file={},line=1,".format(text.replace("\n", "%0A"))
                self.assertTrue(self.reported("github", name).startswith(command))
                place = self.results(name)[0]["locations"][0]["physicalLocation"]
                self.assertEqual(place["artifactLocation"]["uri"], path)
                self.assertIn('<file name="{}">\n'.format(attribute), self.reported("checkstyle", name))
                shown = re.sub("[\n\x1b\x7f\u202e]", "\ufffd", text)
                self.assertTrue(self.reported("caret", name).startswith(shown + ":1:11: error: "))

    def test_documents_that_are_not_read(self):
        """SARIF says that a document wasn't read to its end, and each report has its end."""
        self.write("a.html", "<a href='x'>")
        self.write("b.xml", "<urlset><loc>http://h/ a</loc>")
        self.write("c.html", "<a href='x y'>")
        names = ("a.html", "b.xml", "c.html", "missing.html")
        for form in FORMATS:
            status, written, _ = self.run_on("--format", form, *names)
            self.assertEqual((status, written.count(b"U+0020 SPACE")), (2, 2))
        run = json.loads(self.reported("sarif", *names))["runs"][0]
        self.assertEqual([it["ruleId"] for it in run["results"]], ["code-point"] * 2)
        self.assertEqual(run["invocations"], [{"executionSuccessful": False, "toolExecutionNotifications": [
            {"level": "error", "message": {"text": "a file can't be read, which standard error names"}}]}])
        self.assertEqual(len(ElementTree.fromstring(self.reported("checkstyle", *names).encode())), 2)
        *suites, run = ElementTree.fromstring(self.reported("junit", *names).encode())
        # (a document without a wrong link has a test that passes; one that isn't read to its end none)
        tests = [(suite.get("name"), [it.tag for test in suite for it in test]) for suite in suites]
        self.assertEqual(tests, [("a.html", []), ("b.xml", ["failure"]), ("c.html", ["failure"])])
        self.assertEqual([it.tag for test in run for it in test], ["error"])
        self.assertEqual(self.results("missing.html"), [])
        self.assertEqual(list(ElementTree.fromstring(self.reported("checkstyle", "missing.html").encode())), [])

    def test_what_is_left_out(self):
        self.write("a.html", "<!-- urlcheck: ignore -->\n<a href='x y'>\n<a href='{{ a }}'><a href='z^'>")
        self.write("patterns", "\\{\\{\n")
        for form in FORMATS:
            status, written, said = self.run_on("--format", form, "--ignore", "patterns", "a.html")
            self.assertEqual((status, written.count(b"CIRCUMFLEX"), written.count(b"SPACE")), (1, 1, 0))
            self.assertEqual(said, b"urlcheck-documents: 1 document, 3 links, 1 refused, 2 ignored\n")

    def test_a_very_long_link(self):
        """A link longer than a line of `lint` may be is reported, and nothing is written in its place."""
        self.write("a.html", "<a href='" + "a" * 65_535 + "^'><a href='" + "a" * 65_536 + "^'>")
        first, second = (json.loads(line) for line in self.reported("json", "a.html").splitlines())
        self.assertEqual(first["mended"], "a" * 65_535 + "%5E")
        self.assertEqual((second["column"], second["cut"], "mended" in second), (65_557 + 65_536, True, False))
        self.assertEqual(second["text"], "\u2026" + "a" * 99 + "^")

    def test_many_links(self):
        """The longest of the formats is written of a document in which 20,000 links are refused."""
        self.write("a.html", "<a href='a b'>" * 20_000)
        self.assertEqual(len(self.results("a.html")), 20_000)

    def test_columns(self):
        """The columns of a link and a wrong place in each unit: after `h` with a combining mark, two wide code points of three
        bytes, one of four bytes and two code units of UTF-16, and a tab, which goes on to the column 17."""
        text = "<p>h\u0301\u65e5\u672c\U0001f600 \t<a href='x\u65e5 \U0001f600'>\n"
        self.write("a.html", text)
        self.write("b.html", text.replace("href='", "href='&amp;"))
        for unit, link, place, end in (
            ("code-points", 20, 22, 24), ("bytes", 28, 32, 37), ("utf16", 21, 23, 26), ("screen", 26, 29, 32),
        ):
            with self.subTest(unit):
                words = ("--quiet", "--columns", unit)
                self.assertEqual(self.run_on("--list", *words, "a.html")[1].split(b":")[2], str(link).encode())
                self.assertEqual(self.run_on(*words, "a.html")[1].split(b":")[2], str(place).encode())
                found = [json.loads(self.reported("json", "--columns", unit, name)) for name in ("a.html", "b.html")]
                # (a reference of five code points of ASCII is before the second)
                self.assertEqual([it["column"] for it in found], [place, place + 5])
                self.assertIn(",col={},".format(place), self.reported("github", "--columns", unit, "a.html"))
                self.assertIn(' column="{}" '.format(place), self.reported("checkstyle", "--columns", unit, "a.html"))
                if unit in UNITS_OF_SARIF:
                    run = json.loads(self.reported("sarif", "--columns", unit, "a.html"))["runs"][0]
                    kind = {"code-points": "unicodeCodePoints", "utf16": "utf16CodeUnits"}[unit]
                    self.assertEqual(run["columnKind"], kind)
                    where = run["results"][0]["locations"][0]["physicalLocation"]["region"]
                    # (the wrong space, which takes one column in each)
                    self.assertEqual(where, {"startLine": 1, "startColumn": place, "endColumn": place + 1})
                    fix = self.fix("a.html", (1, link, 1, end), "x\u65e5%20\U0001f600", "same")
                    self.assertEqual(run["results"][0]["fixes"], [fix])
        for unit in ("bytes", "screen"):
            words = ("--format", "sarif", "--columns", unit, "--base", "no base", "a.html")
            said = ("urlcheck-documents: sarif doesn't support the column unit {}\n"
                    "urlcheck-documents: the column units of sarif: code-points utf16\n").format(unit)
            self.assertEqual(self.run_on(*words), (2, b"", said.encode()))

    def test_columns_of_two_lines(self):
        """A fix over two lines, and the place from which on a document can't be read."""
        self.write("a.html", "<a href='\U0001f600\n\U0001f600^'>")
        fix = self.fix("a.html", (1, 10, 2, 4), "\U0001f600\U0001f600%5E", "same")
        self.assertEqual(self.results("--columns", "utf16", "a.html")[0]["fixes"], [fix])
        self.write("b.xml", "<a>\n\u65e5\U0001f600</b></a>")
        for unit, column in (("code-points", 5), ("bytes", 10), ("utf16", 6), ("screen", 7)):
            said = "urlcheck-documents: b.xml:2:{}: can't be read from here on: mismatched tag\n".format(column)
            self.assertEqual(self.run_on("--list", "--quiet", "--columns", unit, "b.xml"), (2, b"", said.encode()))

    def test_wrong_words(self):
        self.write("a.html", "<a href='x y'>")
        for words, wanted in (
            (("--list", "--format", "json", "a.html"), "--list checks nothing, so that --format has no use"),
            (("--format=gnu", "--list", "a.html"), "--list checks nothing, so that --format has no use"),
            (("--format", "jsn", "a.html"), "no format is named 'jsn'; the nearest is json"),
            (("a.html", "--format"), "--format needs a value"),
            (("--columns", "utf-16", "a.html"), "no column unit is named 'utf-16'; the nearest is utf16"),
        ):
            status, written, said = self.run_on(*words)
            self.assertEqual((status, written), (2, b""))
            self.assertIn("urlcheck-documents: " + wanted + "\n", said.decode())
        status, written, said = self.run_on("--format", "sarif", "--base", "x", "a.html")
        self.assertEqual((status, written), (2, b""))

    def test_output_that_takes_nothing(self):
        self.write("a.html", "<a href='x'>")
        for form in ("sarif", "checkstyle", "junit", "gitlab", "rdjson"):
            for shut in (">&-", ">/dev/full"):
                line = '"{}" -m urlcheck.documents --format {} a.html {}'.format(sys.executable, form, shut)
                ran = subprocess.run(["bash", "-c", line], cwd=self.room, capture_output=True)
                self.assertEqual(ran.returncode, 3, ran.stderr)
                self.assertNotIn(b"Traceback", ran.stderr)


if __name__ == "__main__":
    unittest.main()
